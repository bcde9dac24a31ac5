"""A Rattle file as tokens, with the edits that make it Rust."""

import re

TOKEN = re.compile(
    r"""
    (?P<comment>//[^\n]*)
  | (?P<string>b?"(?:\\.|[^"\\])*"|b?'(?:\\[^'\n]+|[^\\'\n])')
  | (?P<lifetime>'[a-z_]\w*)
  | (?P<number>\d\w*)
  | (?P<word>[^\W\d]\w*)
  | (?P<space>\s+)
  | (?P<mark>::|->|=>|\.\.=|\.\.|\S)""",
    re.X | re.S,
)
OPEN, CLOSE = "([{", ")]}"
# stands for what was cut, until the text is tidied
CUT = "\0"


class Tokens:
    """The tokens of a file, and the new text of those that are edited. Tokens are named by their numbers."""

    def __init__(self, path):
        self.path, self.source = path, path.read_text()
        self.kind, self.text, self.start = [], [], []
        for found in TOKEN.finditer(self.source):
            self.kind.append(found.lastgroup)
            self.text.append(found[0])
            self.start.append(found.start())
        self.size = len(self.text)
        self.new = {}
        self.partner = self.pairs()

    def fail(self, i, why):
        """Ends the program because of what stands at a token."""
        line = self.source.count("\n", 0, self.start[min(i, self.size - 1)]) + 1
        raise SystemExit(f"{self.path}:{line}: {why}: {''.join(self.text[i : i + 12])!r}")

    def pairs(self):
        """Returns the partner of each bracket."""
        partner, stack = {}, []
        for i, (kind, text) in enumerate(zip(self.kind, self.text)):
            if kind == "mark" and text in OPEN:
                stack.append(i)
            elif kind == "mark" and text in CLOSE:
                if not stack or OPEN.index(self.text[stack[-1]]) != CLOSE.index(text):
                    self.fail(i, "unbalanced")
                opened = stack.pop()
                partner[opened], partner[i] = i, opened
        if stack:
            self.fail(stack[-1], "unbalanced")
        return partner

    # ---- places

    def at(self, i):
        """Returns the text of a token, or nothing behind the last one."""
        return self.text[i] if i < self.size else ""

    def next(self, i):
        """Returns the first token of code at or behind a token."""
        while i < self.size and self.kind[i] in ("space", "comment"):
            i += 1
        return i

    def after(self, i):
        """Returns the first token of code behind a token."""
        if i >= self.size:
            self.fail(self.size - 1, "unexpected end")
        return self.next(i + 1)

    def before(self, i):
        """Returns the last token of code before a token."""
        i -= 1
        while self.kind[i] in ("space", "comment"):
            i -= 1
        return i

    def past(self, i):
        """Returns the token behind one, or behind the brackets that open there."""
        opens = self.kind[i] == "mark" and self.text[i] in OPEN
        return (self.partner[i] if opens else i) + 1

    def until(self, i, marks):
        """Returns the first token from one on, outside brackets, whose text is one of these."""
        while self.at(i) not in marks:
            if i >= self.size:
                self.fail(self.size - 1, "unexpected end")
            i = self.past(i)
        return i

    def angle(self, i):
        """Returns the token behind the angle brackets that open at one."""
        depth = 0
        while i < self.size:
            depth += {"<": 1, ">": -1}.get(self.text[i], 0)
            i += 1
            if depth == 0:
                return i
        self.fail(i, "unbalanced <")

    def braces(self, i):
        """Returns the token behind the braces that open at one."""
        if self.at(i) != "{":
            self.fail(i, "braces are wanted")
        return self.partner[i] + 1

    def comments_above(self, i):
        """Returns the first token of the comments that stand right above a token."""
        while (
            i >= 2
            and self.kind[i - 1] == "space"
            and self.text[i - 1].count("\n") == 1
            and self.kind[i - 2] == "comment"
            and not self.text[i - 2].startswith("//!")
            and (i == 2 or self.kind[i - 3] == "space" and "\n" in self.text[i - 3])
        ):
            i -= 2
        return i

    # ---- edits

    def cut(self, i, j, by=""):
        """Cuts the tokens from i to j - 1, and puts a text in their place."""
        for k in range(i, j):
            is_line = self.kind[k] == "space" and "\n" in self.text[k]
            self.new[k] = self.text[k] if is_line else "" if self.kind[k] == "space" else CUT
        if by:
            self.new[i] = by

    def edited(self, i, j):
        """Returns the text from i to j - 1 as it is now."""
        return "".join(self.new.get(k, self.text[k]) for k in range(i, j))

    def plain(self, i, j):
        """Returns this on one line, without comments."""
        text = "".join(self.new.get(k, self.text[k]) for k in range(i, j) if self.kind[k] != "comment")
        return re.sub(r"\s+", " ", text.replace(CUT, "")).strip()

    def code(self, i, j):
        """Returns the text from i to j - 1 as it is now, without comments."""
        return re.sub(r"//[^\n]*", "", self.edited(i, j)).replace(CUT, "")
