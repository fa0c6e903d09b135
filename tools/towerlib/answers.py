"""What the library answers: the base of every answer, where its words stand in the text, and those of a check and of a proposer, also as JSON."""
from .output import say
from .parts import counted, proposal_of, table_of
from .proposing import own_thresholds, watched
from .refusals import told
from .rewritten import rewritten, with_proposal


class Answer:
    """A result, or a refusal with its number, word and place; with the parts that it speaks of, where the words can be cut into them."""

    def __init__(self, library, given, call):
        self.library, self.given, self.table = library, given, table_of(given)
        self.proposal = proposal_of(self.table, given)
        self.result, self.number, self.word, self.place, self.line = None, 0, None, None, ""
        try:
            self.result = call()
        except library.Refusal as refusal:
            self.number, self.word, self.place, self.line = refusal.number, refusal.word, refusal.place, str(refusal)

    def propose(self, thresholds, tell):
        """Makes a proposal, puts it in the place of the one that was given, if one was, and gives the number of passes."""
        made = watched(self.library.propose, self.given.table, thresholds, tell=tell)
        self.given = with_proposal(self.given, made.words)
        self.proposal = proposal_of(self.table, self.given)
        return made.passes

    def point(self):
        """The point that a refusal speaks of, or None."""
        return self.place if self.number in (5, 11, 12, 13, 14, 15, 16, 18) and self.place < len(self.table.points) else None

    def entry(self):
        """The entry that a refusal speaks of, or None."""
        before = {10: 0, 16: len(self.table.points)}.get(self.number) if self.table else None
        return None if before is None or self.place < before else self.place - before

    def at(self):
        """Where the words stand that a refusal speaks of, or None in bytes."""
        return self.given.place(*word_of(self))

    def json(self, word):
        """What every answer has; null for what isn't given. A refusal also says where its words stand."""
        told = {"verdict": "refused" if self.number else word, "number": self.number, "word": self.word, "place": self.place}
        return {**told, "at": place_json(self.at()) if self.number else None}


class Checked(Answer):
    """Accepted with its alarms, each a node and a kind's word, or refused. Where there is no proposal one is made first, which can be refused too."""

    def __init__(self, library, given, tell=say):
        super().__init__(library, given, lambda: self.checked(tell))
        self.alarms = self.result or []
        self.line = self.line or "accepted %d" % len(self.alarms)

    def checked(self, tell):
        if "proposal" not in self.given.sections:
            tell("tower: there is no proposal; one is made first")
            self.propose(own_thresholds(self.table), tell)
        return self.library.check(self.given.table, self.given.proposal)

    def list(self):
        """The lines that the program rangecheck prints."""
        return [self.line] + ["node %d %s" % alarm for alarm in self.alarms]

    def alarms_at(self, p):
        return [alarm for alarm in self.alarms if self.table.point_of[alarm.node] == p]

    def told(self, alarm):
        """An alarm in words."""
        return "node %d %s, at %s: %s" % (*alarm, self.table.point(self.table.point_of[alarm.node]), self.table.formula(alarm.node))

    def alarm_at(self, alarm):
        """Where an alarm's node stands in the text, or None in bytes."""
        return self.given.place("table", self.table.node_word(alarm.node))

    def json(self):
        """Verdict, number, word, place, and each alarm."""
        return {**super().json("accepted"), "count": len(self.alarms), "alarms": [self.alarm_json(alarm) for alarm in self.alarms]}

    def alarm_json(self, alarm):
        p = self.table.point_of[alarm.node]
        u = self.table.owner[p]
        told = {"node": alarm.node, "kind": alarm.kind, "point": p, "task": u, "name": self.table.name("t", u), "formula": self.table.formula(alarm.node)}
        return {**told, "at": place_json(self.alarm_at(alarm))}


class Proposed(Answer):
    """A proposal with the number of passes that it took, or the refusal to make one."""

    def __init__(self, library, given, thresholds=None):
        super().__init__(library, given, lambda: self.proposed(thresholds))
        self.passes = self.result or 0

    def proposed(self, thresholds):
        self.thresholds = own_thresholds(self.table) if thresholds is None else thresholds
        return self.propose(self.thresholds, say)

    def text(self):
        """The text again with the proposal, or the refusal."""
        if self.number:
            return self.line + "\n"
        by = "by the thresholds " + ",".join(map(str, self.thresholds)) if self.thresholds else "without thresholds"
        return rewritten(self.given, "made in %s, %s" % (counted(self.passes, "passes"), by))

    def json(self):
        words = None if self.number else self.given.proposal
        whole = {**super().json("proposed"), "told": told(self) if self.number else [], "thresholds": self.thresholds}
        return {**whole, "words": len(words or []), "passes": self.passes, "proposal": words}


def place_json(place):
    return None if place is None else place._asdict()


def word_of(answer):
    """The section and the word in it that a refusal speaks of."""
    number, place, table, proposal = answer.number, answer.place, answer.table, answer.proposal
    if number in (1, 2):
        return "table", place
    if number == 3:
        return "table", 5 + place if place < answer.given.table[0] else 5
    if number in (4, 6):
        return "table", table.node_word(place)
    if number in (7, 8, 9):
        return "proposal", place
    if number == 19:  # thresholds stand in no text
        return "thresholds", place
    if answer.entry() is not None:
        return "proposal", proposal.head_word(answer.entry())
    if number == 11:
        held_wrong = place < len(table.points) and proposal.held[place] != 0
        return "proposal", 4 + place if held_wrong else proposal.low_word(place, lacking(table.starts, (proposal.rows + proposal.rests)[place]))
    return "table", table.point_word(place)


def lacking(values, row):
    """The first variable whose value is outside its range."""
    return next(v for v, (value, (low, high)) in enumerate(zip(values, row)) if not low <= value <= high)
