"""Words as people write them: decimal numbers and comments under the marks `table`, `proposal` and `schedule`, with the place of each word; and as the
programs read them: little-endian, the two lengths first. A comment `# name v3 pitch` (or m for a mutex, t for a task), with `: ...` after it or not,
gives a name that is printed; it has no other meaning."""
import re, struct, unicodedata
from array import array
from typing import NamedTuple

MIN, MAX = -2147483648, 2147483647
MARKS = ("table", "proposal", "schedule")
TABLE_WORDS, PROPOSAL_WORDS = 5149, 11268  # the greatest lengths that rangecheck reads
INPUT_BYTES = 2 ** 26  # of one file; there are files without an end
TOKEN = re.compile(r"[^ \t\r\f\v]+")
NUMBER = re.compile(r"(-?)0*([0-9]{1,10})")
NAMING = re.compile(r"\s*name\s+([A-Za-z][0-9][^\s:]*)\s*([^\s:]*)\s*(.?)")
PLAIN = re.compile(r"[vmt](?:0|[1-9][0-9]{0,3})")
SORTS = {"v": ("variable", "variables", 1), "m": ("mutex", "mutexes", 2), "t": ("task", "tasks", 0)}  # with the table's word that counts them
KEPT = {"input", "if", "then", "else", "and", "or", "not", "none", "never", "MIN", "MAX"}  # words that formulas and held sets are written with
SHORT = 40  # characters of a token that a message quotes


class Place(NamedTuple):
    """Where something stands in a text; lines and columns are counted from 1, columns in characters."""

    file: str
    line: int
    column: int

    def __str__(self):
        return "%s:%d:%d" % self


class Bad(Exception):
    """Input that can't be used, with its place, or with the file's name where it isn't text."""

    def __init__(self, place, what):
        super().__init__("%s: %s" % (place, what))


class Given:
    """The words of each section, in a text with the place of each and of the mark, and the names."""

    def __init__(self):
        self.sections, self.places, self.marks, self.names, self.named = {}, {}, {}, {}, {}
        self.texts = []  # as they were read, one after the other
        self.end = None  # where the last one ends

    table = property(lambda self: self.sections.get("table", []))
    proposal = property(lambda self: self.sections.get("proposal", []))
    schedule = property(lambda self: self.sections.get("schedule", []))

    def name(self, letter, number):
        plain = "%s%d" % (letter, number)
        return self.names.get(plain, plain)

    def place(self, section, word):
        """Where a word of a section stands; past its last word, that one, and without words, its mark. None in bytes."""
        mark, (lines, columns) = self.marks.get(section), self.places.get(section, ((), ()))
        at = min(word, len(lines) - 1)
        return mark if mark is None or at < 0 else Place(mark.file, lines[at], columns[at])

    def add(self, mark, words, place):
        """A section, of which the words are in one file."""
        if mark in self.sections:
            before = self.marks[mark]
            raise Bad(place, "the mark '%s' stands here for the second time%s" % (mark, "" if before is None or before.file == place.file else "; the first is at %s" % (before,)))
        self.sections[mark], self.marks[mark], self.places[mark] = words, place, (array("I"), array("I"))


def quoted(token):
    """A token as a message has it: printable, and not longer than need be."""
    return ascii(token if len(token) <= SHORT else token[:SHORT]) + ("" if len(token) <= SHORT else " ..")


def number(token):
    """The 32-bit number that a token is, or None."""
    found = NUMBER.fullmatch(token)
    z = int(found.group(1) + found.group(2)) if found else MAX + 1
    return z if MIN <= z <= MAX else None


def is_name(text):
    """Letters of any script, with their marks, digits and _; the first is a letter or _."""
    return (text[:1] == "_" or text[:1].isalpha()) and all(c == "_" or c.isalnum() or unicodedata.category(c) in ("Mn", "Mc") for c in text)


# ---- texts
def problem_of(token, other=" and no mark"):
    """What is wrong with a token that is no number and nothing else that it might be."""
    if re.fullmatch(r"-?[0-9]+", token):
        return "%s doesn't fit in 32 bits" % (token if len(token) <= SHORT else token[:SHORT] + " ..")
    return "%s is no decimal number%s" % (quoted(token), other)


def add_name(given, comment, place):
    """Takes a name from a comment that gives one."""
    found = NAMING.match(comment)
    if not found:
        return
    what, name, after = found.groups()
    at = lambda k: Place(place.file, place.line, place.column + found.start(k))
    if not PLAIN.fullmatch(what):
        raise Bad(at(1), "%s is no variable (v0 ..), mutex (m0 ..) or task (t0 ..)" % quoted(what))
    if not is_name(name):
        raise Bad(at(2), "%s can't be a name: it is made of letters, digits and _, with no digit first" % quoted(name))
    if name in KEPT or PLAIN.fullmatch(name):
        raise Bad(at(2), "%s can't be a name: %s" % (quoted(name), "formulas and held sets are written with it" if name in KEPT else "it is what stands for something without one"))
    if after not in ("", ":"):
        raise Bad(at(3), "after a name comes ':' or the end of the line")
    if what in given.names:
        raise Bad(at(2), "%s has the name %s already" % (what, quoted(given.names[what])))
    if name in given.names.values():
        raise Bad(at(2), "%s is a name already, of %s" % (quoted(name), next(other for other, taken in given.names.items() if taken == name)))
    given.names[what], given.named[what] = name, at(1)


def add_text(given, text, file):
    """Adds what a text says. Bad tells of its first bad token."""
    section = None
    lines = text.split("\n")
    for l, line in enumerate(lines, 1):
        if "\r" in line.rstrip("\r"):
            raise Bad(Place(file, l, line.index("\r") + 1), "a carriage return within a line; end lines by a line feed, or by both")
        code, _, comment = line.partition("#")
        for found in TOKEN.finditer(code):
            token, place = found.group(), Place(file, l, found.start() + 1)
            if token in MARKS:
                section = token
                given.add(token, [], place)
            elif number(token) is None:
                raise Bad(place, problem_of(token))
            elif section is None:
                raise Bad(place, "the number %s stands before the first mark" % (token if len(token) <= SHORT else token[:SHORT] + " .."))
            else:
                given.sections[section].append(number(token))
                given.places[section][0].append(place.line)
                given.places[section][1].append(place.column)
        add_name(given, comment, Place(file, l, len(code) + 2))
    given.texts.append(text)
    given.end = Place(file, len(lines), len(lines[-1]) + 1)


def is_utf16(data):
    """Whether bytes are text in UTF-16, by its byte order mark or by a zero beside each of the first characters. Words have two zeros in their lengths."""
    head = data[:40]
    beside = not head[::2].strip(b"\0") or not head[1::2].strip(b"\0")
    return head[:2] in (b"\xff\xfe", b"\xfe\xff") or len(head) >= 4 and b"\0\0" not in head and beside


def text_of(data, file):
    """Bytes as text; those that are no UTF-8 stay tokens that are bad, or parts of comments. None where the bytes are words."""
    if is_utf16(data):
        raise Bad(Place(file, 1, 1), "this text is in UTF-16; save it as UTF-8")
    printable = len(data) >= 8 and all(byte in b"\t\n\r" or 32 <= byte < 127 for byte in data[:8])
    return None if b"\0" in data and not printable else data.decode("utf-8-sig", "surrogateescape")


# ---- bytes
def to_bytes(first, second):
    """Both lengths, both parts."""
    return struct.pack("<%di" % (2 + len(first) + len(second)), len(first), len(second), *first, *second)


def add_bytes(given, data, file):
    """Adds the table and the proposal in bytes, as rangecheck reads them."""
    t, w = struct.unpack_from("<2i", data) if len(data) >= 8 else (-1, -1)
    if not (0 <= t <= TABLE_WORDS and 0 <= w <= PROPOSAL_WORDS and len(data) >= 4 * (2 + t + w)):
        raise Bad(file, "these bytes are no table and proposal: the lengths are outside 0..%d and 0..%d, or bytes are missing" % (TABLE_WORDS, PROPOSAL_WORDS))
    words = list(struct.unpack_from("<%di" % (t + w), data, 8))
    for mark, part in (("table", words[:t]), ("proposal", words[t:])):
        if mark in given.sections:
            raise Bad(file, "the bytes have a %s, and so has what was read before" % mark)
        given.add(mark, part, None)


# ---- files
def read(path, name):
    """The bytes of a file, or of standard input for `-`."""
    try:
        with open(0 if path == "-" else path, "rb", closefd=path != "-") as file:
            data = file.read(INPUT_BYTES + 1)
    except OSError as problem:
        raise Bad(name, problem.strerror) from None
    if len(data) > INPUT_BYTES:
        raise Bad(name, "this is longer than the %d bytes that are read" % INPUT_BYTES)
    return data


def fitting_names(given):
    """A name of something that the table hasn't can't be used; which it has is known if its sizes are there and within their limits."""
    for what, place in given.named.items():
        one, many, word = SORTS[what[0]]
        count = given.table[word]
        if int(what[1:]) >= count:
            raise Bad(place, "there is no %s: the table has %d %s" % (what, count, one if count == 1 else many))


def given_in(paths, wanted):
    """What files say together, texts or bytes. Bad tells of the first fault, or at the end of a wanted section that is nowhere."""
    given = Given()
    for path in paths:
        file = "<stdin>" if path == "-" else path
        data = read(path, file)
        text = text_of(data, file)
        if text is None:
            add_bytes(given, data, file)
        else:
            add_text(given, text, file)
    for mark in wanted:
        if mark not in given.sections:
            if given.end is None:
                raise Bad(file, "bytes have no %s" % mark)
            raise Bad(given.end, "the text ends and has no section '%s'" % mark)
    return given
