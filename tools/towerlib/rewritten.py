"""A text with another proposal in it. All else stays as somebody wrote it, comments too."""
import copy
from .decoded import decoded, named, section
from .notation import MARKS, TOKEN, Given, add_text
from .parts import proposal_of, table_of


def with_proposal(given, words):
    """What was given, with these words in the place of its proposal, or after its table. They stand nowhere in a text."""
    whole = copy.copy(given)
    whole.sections, whole.marks = {}, {**given.marks, "proposal": None}
    for mark, old in given.sections.items():
        whole.sections[mark] = words if mark == "proposal" else old
        if mark == "table" and "proposal" not in given.sections:
            whole.sections["proposal"] = words
    return whole


def stands(text, mark):
    """From where to where a section stands in a text: from its mark to its last word, with the comment in that line. None if it isn't there."""
    start, end, before = None, None, 0
    for line in text.split("\n"):
        tokens = list(TOKEN.finditer(line.partition("#")[0]))
        for found in tokens:
            if start is not None and found.group() in MARKS:
                return start, end
            if found.group() == mark:
                start = before + found.start()
            end = before + found.end()
        if tokens:
            end = before + len(line.rstrip("\r"))
        before += len(line) + 1
    return None if start is None else (start, end)


def rewritten(given, note):
    """The texts one after the other, with the proposal in its place or after the table, and a note under its mark. A table in bytes is decoded."""
    table = table_of(given)
    mark, *lines = section(given, "proposal", table, proposal_of(table, given))
    texts = ["\n".join(decoded(given))] if given.marks["table"] is None else given.texts
    text = "".join(text if text.endswith("\n") else text + "\n" for text in texts if text)
    newline = "\r\n" if text.partition("\n")[0].endswith("\r") else "\n"
    start, end = stands(text, "proposal") or stands(text, "table")[1:] * 2
    before, after = text[:start], text[end:]
    gone = Given()  # of the old proposal the words and comments go, but for names
    add_text(gone, text[start:end], "")
    if start == end:
        before += newline * 2
    elif before.rstrip(" \t")[-1:] not in ("", "\n"):
        before += newline
    after = after if after.lstrip(" \t").startswith(("\r", "\n")) else newline + after
    return before + newline.join([*named(gone), mark, "# " + note, *lines]) + after
