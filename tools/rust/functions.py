"""Functions: their signatures, clauses and bodies."""

import re
from dataclasses import dataclass, field

import rules
from tokens import Tokens

PROOF_ATTRIBUTES = {"tactic", "cycle"}
MACROS = {"write", "matches", "unreachable", "prove", "prove_eq", "prove_ne", "bitflag_items", "format"}
CLAUSES = ("requires", "ensures", "ghost")


@dataclass
class Function:
    """A function, by the first tokens of its comments, behind its attributes, and of its own."""

    head: int
    start: int
    fn: int
    name: str
    # the trait or type around it, and mod, impl or trait
    owner: str
    where: str
    attributes: list
    # the owner, or the file, and the name
    path: str
    is_public: bool = False
    # where its parameters open
    opening: int = 0
    clauses: list = field(default_factory=list)


class Functions(Tokens):
    """A file whose functions are turned into Rust."""

    # whether documentation tells the contract, and small functions get `#[inline]`
    is_library = True
    macros = MACROS

    def __init__(self, path):
        super().__init__(path)
        # whether the items around have type parameters
        self.generic = False
        # the laws that the file uses, whose calls are cut
        self.laws = set()

    def function(self, head, start, i, owner, where, attributes):
        """Turns a function into Rust, and returns the token behind it. `head` is the first token of its comments, `start` the
        first behind its attributes, `owner` the trait or type around it."""
        while self.at(i) != "fn":
            if self.at(i) == "final":
                self.new[i] = self.new[i + 1] = ""
            i = self.after(i)
        function = Function(head, start, i, self.at(self.after(i)), owner, where, attributes, f"{owner or self.path.stem}::")
        function.path += function.name
        function.is_public = self.plain(start, i).split(" ")[0] == "pub" or where == "trait" or " for " in owner
        i = self.signature(function)
        if self.at(i) == ";":
            self.describe(function)
            return i + 1
        end = self.braces(i)
        body = self.plain(i + 1, end - 1)
        if not body and any(clause.startswith("ensures") for clause in function.clauses):
            self.cut(head, end)  # a law
        elif function.name == "clone" and "AllocError" in self.plain(function.fn, i):
            if body != "Ok(*self)":
                self.fail(function.fn, "a clone that does more than copy")
            self.cut(function.fn, end, "fn clone(&self) -> Self {\n        *self\n    }")
        else:
            self.body(i + 1, end - 1, owner)
            self.additions(function, i)
            self.describe(function, self.is_inline(function, i, end))
        return end

    def signature(self, function):
        """Turns a signature into Rust, cuts the clauses, and returns the token behind them."""
        i = self.after(self.after(function.fn))
        if self.at(i) == "<":
            end = self.angle(i)
            self.generics(i, end, "Formatter<W>" in self.plain(end, self.partner[self.next(end)]))
            i = self.next(end)
        if self.at(i) != "(":
            self.fail(i, "parameters are wanted")
        function.opening = i
        self.parameters(i)
        if function.where == "impl" and function.name in rules.RENAMED and "FlushRecorder" in self.plain(i, self.partner[i]):
            self.new[self.after(function.fn)] = rules.RENAMED.apply(function.name)
        last = self.partner[i]
        i = self.after(last)
        while self.at(i) not in ("{", ";", *CLAUSES):
            last = self.partner[i] if self.at(i) in "([" else i
            i = self.after(last)
        first = i
        i, function.clauses = self.clauses(i)
        if first < i:
            self.cut(last + 1, i)
            self.new[last + 1] = " " if self.at(i) == "{" else ""
            for k in range(last + 2, i):
                self.new[k] = ""
        return i

    def additions(self, function, i):
        """Adds `const`, tests of conditions, and a twin without these, to a function whose body opens at i."""
        const = "const " if self.at(self.before(function.fn)) == "const" else ""
        if function.path in rules.CONST and not const:
            rules.CONST.apply(function.path)
            const = "const "
            self.new[function.fn] = "const fn"
        if function.path in rules.TESTS:
            column = 8 if function.where in ("impl", "trait") else 4
            tests = rules.TESTS.apply(function.path)
            self.new[i] = "{" + "".join("\n" + " " * column + test for test in tests)
            if self.has_twin(function):
                self.new[i] += self.twin(function.name, const, self.plain(function.opening, i))

    def has_twin(self, function):
        """Returns whether proved code calls the function without its tests."""
        if function.name in rules.UNTESTED_METHODS:
            rules.UNTESTED_METHODS.apply(function.name)
            return True
        return function.name == "new" and type_name(function.owner) in rules.UNTESTED

    def is_inline(self, function, i, end):
        """Returns whether a function, whose body is from i to end - 1, gets `#[inline]`."""
        tokens = sum(self.kind[k] not in ("space", "comment") for k in range(i, end))
        if tokens > rules.MOST_INLINE:
            return False
        if not self.generic and not re.search(r"<(?!\'\w+>)", self.plain(function.fn, function.opening)):
            return True
        for name in (self.path.name, "/".join(self.path.parts[-2:])):
            if name in rules.INLINE_GENERIC:
                rules.INLINE_GENERIC.apply(name)
                return True
        return False

    def clauses(self, i):
        """Cuts the clauses of a function, and returns the token behind them, and the clauses on one line each."""
        found = []
        while self.at(i) in CLAUSES:
            word, first = self.at(i), i
            i = self.after(i)
            if word == "ghost":
                i = self.after(self.after(i))
            else:
                while self.at(i) == "*" or self.kind[i] == "word":
                    i = self.after(i)
            end = self.braces(i)
            if word != "ghost":
                found.append(re.sub(r"\s+", " ", "".join(self.text[first:end])))
            self.cut(first, end)
            i = self.next(end)
        return i, found

    def twin(self, name, const, signature):
        """Returns the end of a method that tests its conditions, and the beginning of one that doesn't, which proved code calls."""
        arguments = ", ".join(re.findall(r"(\w+):", signature))
        receiver = "self." if "self" in signature.split(",")[0] else "Self::"
        call = f"{receiver}{name}_proved({arguments})"
        return f"\n        {call}\n    }}\n\n    #[inline]\n    pub(crate) {const}fn {name}_proved{signature} {{"

    def generics(self, i, end, writes):
        """Cuts the type parameter of a writer, and lets others be unsized where that is wanted."""
        for k in range(i, end):
            if writes and self.text[k] == "W" and re.match(r"W: (fmt::)?Write[,>]", self.plain(k, end)):
                stop = self.until(k, (",", ">"))
                if self.at(stop) == ",":
                    self.cut(k, stop + 1)
                elif self.at(self.before(k)) == ",":
                    self.cut(self.before(k), stop)
                else:
                    self.cut(i, end)
            elif self.text[k] in rules.UNSIZED and self.at(self.after(k)) in ("<", ",", "+", ">"):
                last = self.angle(k + 1) - 1 if self.at(k + 1) == "<" else k
                if self.at(self.after(last)) in (",", ">"):
                    rules.UNSIZED.apply(self.text[k])
                    self.new[last] = self.text[last] + " + ?Sized"

    def parameters(self, i):
        """Cuts the parameter `alloc: Global`."""
        for k in range(i + 1, self.partner[i]):
            if self.text[k] == "alloc" and self.at(k + 1) == ":" and self.at(k + 3) == "Global":
                self.cut_item(k, k + 4)

    def cut_item(self, i, stop):
        """Cuts an item of a list with the comma behind it."""
        if self.at(stop) == ",":
            stop += 2 if self.at(stop + 1) == " " else 1
        self.cut(i, stop)

    def body(self, i, end, owner):
        """Turns code into Rust."""
        while i < end:
            text = self.text[i]
            if text == "#" and self.at(i + 1) == "[":
                if self.at(i + 2) not in PROOF_ATTRIBUTES | {"inline", "cold"}:
                    self.fail(i, "unknown attribute")
                if self.at(i + 2) in PROOF_ATTRIBUTES:
                    self.cut(i, self.partner[i + 1] + 1)
            elif text in ("requires", "ensures") and self.kind[i] == "word":  # of a closure
                stop = self.braces(self.until(i, "{"))
                self.cut(i, stop)
                i = stop - 1
            elif text == "alloc" and self.is_argument(i):
                self.cut_item(i, i + 1)
            elif text == "allocator":
                self.allocator(i)
            elif text == "!" and self.kind[i - 1] == "word" and self.at(i + 1) == "(":
                self.macro(i - 1)
            elif self.is_call(i):
                self.call(i, owner)
            elif text in rules.LAW_CALLS or text in self.laws:
                self.law_call(i)
            elif text == "unsafe":
                self.safe(i)
            i += 1

    def is_argument(self, i):
        """Returns whether a token is an argument of its own."""
        is_first = self.at(i - 1) == "("
        return (is_first or self.kind[i - 1] == "space" and self.at(i - 2) in ("(", ",")) and self.at(i + 1) in (",", ")")

    def allocator(self, i):
        """Cuts `*list.allocator()`, as an argument or with the statement that names it `alloc`."""
        first = i
        while self.kind[first - 1] == "word" or self.text[first - 1] == ".":
            first -= 1
        first -= 1
        if self.text[first] != "*" or self.at(i + 1) != "(":
            self.fail(i, "unknown use of an allocator")
        stop = self.partner[i + 1] + 1
        if self.at(stop) in (",", ")"):
            self.cut_item(first, stop)
        elif self.plain(first - 6, first) == "let alloc =" and self.at(stop) == ";":
            self.cut(first - 6, stop + 1)
        else:
            self.fail(i, "unknown use of an allocator")

    def is_call(self, i):
        """Returns whether a token is the name of a method or of a function of a type that is called."""
        return self.kind[i] == "word" and self.at(i + 1) == "(" and self.at(i - 1) in (".", "::")

    def call(self, i, owner):
        """Gives a method its name in Rust, and lets proved code call functions without tests."""
        name = self.text[i]
        if self.at(i - 1) == "." and name in rules.RENAMED and self.at(i + 2) != ")":
            self.new[i] = rules.RENAMED.apply(name)
        elif not self.is_library:
            return
        elif self.at(i - 1) == "." and name in rules.UNTESTED_METHODS:
            self.new[i] = f"{name}_proved"
        elif self.at(i - 1) == "::" and name == "new":
            kind = self.type_before(i - 2, owner)
            if kind in rules.UNTESTED:
                rules.UNTESTED.apply(kind)
                self.new[i] = f"{name}_proved"

    def macro(self, i):
        """Checks a call of a macro, and gives it its name in Rust."""
        name = self.text[i]
        if name not in self.macros:
            self.fail(i, "unknown macro")
        if name == "format" and i not in self.new:
            if self.text[i + 3 : i + 8] != ["in", " ", "alloc", ";", " "]:
                self.fail(i, "unknown macro")
            self.new[i] = "format_in"
            self.cut(i + 3, i + 8)
        if name.startswith("prove"):
            self.new[i] = name.replace("prove", "debug_assert")

    def law_call(self, i):
        """Cuts a statement that calls a law."""
        k = self.after(i)
        if self.at(k) == "::":
            k = self.next(self.angle(self.after(k)))
        if self.at(k) != "(" or self.at(self.after(self.partner[k])) != ";":
            self.fail(i, "unknown call of a law")
        if self.text[i] in rules.LAW_CALLS:
            rules.LAW_CALLS.apply(self.text[i])
        self.cut(i, self.after(self.partner[k]) + 1)

    def safe(self, i):
        """Takes the call of a function of std that is safe here out of its unsafe block."""
        brace = self.after(i)
        if self.at(self.after(brace)) not in rules.SAFE_HERE:
            self.fail(i, "unsafe code")
        rules.SAFE_HERE.apply(self.at(self.after(brace)))
        close = self.partner[brace]
        for k in (*range(i, self.after(brace)), *range(self.before(close) + 1, close + 1)):
            self.new[k] = ""

    def type_before(self, i, owner):
        """Returns the name of the type whose last token is i."""
        if self.at(i) == ">":
            depth = 0
            while depth or self.at(i) == ">":
                depth += {">": 1, "<": -1}.get(self.at(i), 0)
                i -= 1
            i -= self.at(i) == "::"
        return type_name(owner) if self.at(i) == "Self" else self.at(i)

    def describe(self, function, is_inline=False):
        """Adds sections on the contract and on the tests to a function's documentation, and attributes for the compiler."""
        if not self.is_library:
            return
        first = min([function.start, *(place for _, place, _ in function.attributes)])
        above = first - 2 if first > 1 and self.kind[first - 1] == "space" else first - 1
        lines = []
        if function.is_public and self.kind[above] == "comment":
            lines = rules.documentation(function.path, function.clauses)
        if function.path in rules.APART:
            rules.APART.apply(function.path)
            lines += ["#[cold]", "#[inline(never)]"]
        elif is_inline and not any(name in ("inline", "cold") for name, _, _ in function.attributes):
            lines.append("#[inline]")
        if lines and not function.path.startswith("Drop::"):
            column = "\n" + " " * (self.start[first] - self.source.rfind("\n", 0, self.start[first]) - 1)
            self.new[first] = column.join(lines) + column + self.new.get(first, self.text[first])


def type_name(owner):
    """Returns the name of the type that an impl is for."""
    return re.sub(r"<.*", "", owner.split(" for ")[-1])
