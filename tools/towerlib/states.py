"""The last state of a run, for people and as JSON."""
from .answers import Answer
from .refusals import told


class Played(Answer):
    """The state that a run ends in, or the refusal of its table."""

    def __init__(self, library, given):
        super().__init__(library, given, lambda: library.run(given.table, given.schedule))
        self.state = self.result

    def stop(self, u):
        """What stopped a task, or None."""
        kind = self.library.KINDS.get(self.state.stop_kinds[u])
        return None if kind is None else (self.state.stop_nodes[u], kind)

    def waits(self, u):
        """The mutex for which a task waits, and who has it, or None."""
        kind, m = self.table.points[self.state.points[u]][:2]
        return (m, self.state.owners[m]) if kind == 3 and self.state.owners[m] >= 0 and self.stop(u) is None else None

    def lines(self):
        if self.number:
            return [self.line] + ["  " + line for line in told(self)]
        table, state = self.table, self.state
        lines = ["after the schedule's %d words" % len(self.given.schedule)]
        for u in range(table.tasks):
            lines.append("  %s stands at %d: %s" % (table.task(u), state.points[u], table.instruction(state.points[u])))
            if self.stop(u):
                lines.append("    ! stopped by node %d %s: %s" % (*self.stop(u), table.formula(self.stop(u)[0])))
            elif self.waits(u):
                lines.append("    waits: %s has %s" % (table.task(self.waits(u)[1]), table.name("m", self.waits(u)[0])))
        lines.append("  " + table.row([(value, value) for value in state.values[: table.variables]]))
        for m, owner in enumerate(state.owners[: table.mutexes]):
            lines.append("  %s: %s" % (table.name("m", m), "free" if owner < 0 else "held by " + table.task(owner)))
        return lines

    def json(self):
        whole = {**super().json("played"), "told": told(self) if self.number else [], "words": len(self.given.schedule)}
        if self.number:
            return {**whole, "tasks": None, "variables": None, "mutexes": None}
        table, state = self.table, self.state
        tasks = []
        for u in range(table.tasks):
            stop, waits = self.stop(u), self.waits(u)
            tasks.append({
                "task": u, "name": table.name("t", u), "point": state.points[u], "instruction": table.instruction(state.points[u]),
                "stopped": stop and {"node": stop[0], "kind": stop[1], "formula": table.formula(stop[0])}, "waits": waits and {"mutex": waits[0], "owner": waits[1]},
            })
        variables = {table.name("v", v): value for v, value in enumerate(state.values[: table.variables])}
        mutexes = [{"mutex": m, "name": table.name("m", m), "owner": None if owner < 0 else owner} for m, owner in enumerate(state.owners[: table.mutexes])]
        return {**whole, "tasks": tasks, "variables": variables, "mutexes": mutexes}
