"""Rules that have to be applied: one that names nothing any more is refused."""

import sys


class Rules:
    """Rules by the names that they are for, which note where they are applied."""

    tables = []

    def __init__(self, rules):
        self.rules = rules if isinstance(rules, dict) else dict.fromkeys(rules)
        self.unapplied = set(self.rules)
        caller = sys._getframe(1)
        self.place = f"{caller.f_code.co_filename}:{caller.f_lineno}"
        Rules.tables.append(self)

    def __contains__(self, name):
        return name in self.rules

    def items(self):
        """Returns the names with their rules."""
        return self.rules.items()

    def apply(self, name):
        """Returns the rule for a name, and notes that it was applied."""
        self.unapplied.discard(name)
        return self.rules[name]


def unapplied():
    """Returns a line for each rule that was never applied."""
    return [f"{table.place}: this rule names nothing: {name!r}" for table in Rules.tables for name in sorted(table.unapplied)]
