"""Items: all that stands in a file outside functions."""

import re

import rules
from derives import derived
from functions import PROOF_ATTRIBUTES, Functions
from uses import rewritten

ATTRIBUTES = {"derive", "derive_where", "inline", "cold", "must_use", "repr"} | PROOF_ATTRIBUTES
TAKES_APART = re.compile(r"fn drop\(self\) \{ let \w+ \{ (\w+: _\w*,? )*\} = self; \}")


class Items(Functions):
    """A file whose items are turned into Rust. What is unknown ends the program."""

    attributes = ATTRIBUTES
    # modules that are cut beside those of laws
    left_out = frozenset()

    def __init__(self, path):
        super().__init__(path)
        for i in range(1, self.size):
            if self.text[i] == "Drop" and self.kind[i] == "word" and self.at(self.before(i)) in (":", "+"):
                self.drop_bound(i)

    def drop_bound(self, i):
        """Cuts the bound `Drop`, which in Rattle all types have that may be dropped."""
        if self.at(self.before(i)) == ":" and self.at(self.after(i)) == "+":
            self.fail(i, "the bound `Drop` has to be the last one")
        self.cut(self.before(i), i + 1)

    def items(self, i, end, where, owner=""):
        """Turns the items from i up to end into Rust. `where` is mod, impl, trait, struct or enum."""
        while (i := self.next(i)) < end:
            head = self.comments_above(i)
            attributes = []
            while self.at(i) == "#":
                i = self.attribute(i, attributes)
            start = i
            if self.at(i) == "pub":
                i = self.after(i)
                if self.at(i) == "(":
                    i = self.after(self.partner[i])
            i = self.item(head, start, i, end, where, owner, attributes)

    def item(self, head, start, i, end, where, owner, attributes):
        """Turns an item into Rust, and returns the token behind it."""
        word = self.at(i)
        if word == "ghost":
            return self.ghost(head, i)
        if where == "struct":
            return self.field(i, end)
        if word == "use":
            return self.use(start, i)
        if word == "mod":
            return self.module(head, i)
        if word in ("type", "static") or word == "const" and self.at(self.after(i)) != "fn":
            return self.until(i, ";") + 1
        if word in ("struct", "enum"):
            return self.structure(i, attributes)
        if word in ("trait", "impl"):
            return self.block(head, i)
        if word in ("fn", "const", "final", "unsafe"):
            return self.function(head, start, i, owner, where, attributes)
        if word in self.macros and self.at(i + 1) == "!":
            i = self.until(i, "{")
            if word == "macro_rules":
                self.body(i + 1, self.partner[i], owner)
            return self.braces(i)
        if where == "enum":
            return self.variant(i, end)
        return self.fail(i, "unknown item")

    def attribute(self, i, attributes):
        """Adds an attribute to the attributes, and cuts one of proofs. Returns the token behind it."""
        first, i = i, i + 1
        if self.at(i) == "!":
            i += 1
        name, end = self.at(i + 1), self.partner[i] + 1
        if name not in self.attributes:
            self.fail(first, "unknown attribute")
        if name in PROOF_ATTRIBUTES:
            self.cut(first, end)
        attributes.append((name, first, end))
        return self.next(end)

    def ghost(self, head, i):
        """Cuts `ghost use ..;`, `ghost name = {..};` and `ghost name: {..} [by {..}] [= {..}]` with `,` or `;`."""
        i = self.after(i)
        if self.at(i) == "use":
            end = self.until(i, ";") + 1
            self.cut(head, end)
            return end
        while self.at(i) not in (":", "="):
            if i >= self.size or self.kind[i] not in ("word", "space", "mark") or self.at(i) in "{};,":
                self.fail(i, "unknown ghost item")
            i += 1
        while self.at(i) in (":", "=", "by"):
            i = self.next(self.braces(self.after(i)))
        if self.at(i) in (",", ";"):
            self.cut(head, i + 1)
            return i + 1
        if self.at(i) != "}":
            self.fail(i, "unknown end of a ghost item")
        self.cut(head, i)
        return i

    def module(self, head, i):
        """Turns a module into Rust, or cuts one of laws."""
        name = self.at(self.after(i))
        i = self.after(self.after(i))
        if self.at(i) != ";":
            self.items(i + 1, self.partner[i], "mod")
            return self.partner[i] + 1
        if name in rules.LAW_MODULES:
            rules.LAW_MODULES.apply(name)
            self.cut(head, i + 1)
        elif name in self.left_out:
            self.cut(head, i + 1)
        return i + 1

    def use(self, start, i):
        """Cuts the names of a use declaration that Rust lacks, and changes others."""
        end = self.until(i, ";")
        lines = rewritten(self.plain(self.after(i), end), lambda path: self.path_of(i, path))
        if lines == []:
            self.cut(self.comments_above(start), end + 1)
        elif lines:
            visibility = self.plain(start, i)
            self.cut(start, end + 1, "\n".join(f"{visibility} use {line};".strip() for line in lines))
        return end + 1

    def path_of(self, i, path):
        """Returns the path in Rust of a name that is used, or '' if there is none."""
        changed = rules.path_of(path)
        if changed is None:
            self.fail(i, "unknown name of std")
        return changed

    def field(self, i, end):
        """Returns the token behind a field."""
        while i < end and self.at(i) != ",":
            i = self.angle(i) if self.at(i) == "<" else self.past(i)
        return i + 1

    def variant(self, i, end):
        """Turns a variant of an enum into Rust, and returns the token behind it."""
        while i < end and self.at(i) != ",":
            if self.at(i) == "{":
                self.items(i + 1, self.partner[i], "struct")
            i = self.past(i)
        return i + 1

    def structure(self, i, attributes):
        """Turns a struct or an enum into Rust, and returns the token behind it."""
        kind, name = self.at(i), self.at(self.after(i))
        i = self.after(self.after(i))
        generics, fields = "", []
        if self.at(i) == "<":
            generics = self.plain(i, self.angle(i))
            i = self.next(self.angle(i))
        if self.at(i) == "{":
            self.items(i + 1, self.partner[i], kind)
            fields = re.findall(r"(?m)^\s*(?:pub(?:\([^)]*\))? )?(\w+): (.*?),?$", self.code(i + 1, self.partner[i]))
            end = self.partner[i] + 1
        else:
            end = self.next(self.partner[i] + 1 if self.at(i) == "(" else i)
            if self.at(end) != ";":
                self.fail(i, "unknown struct")
            end += 1
        for attribute, first, close in attributes:
            names = re.findall(r"\w+", self.plain(first, close))[1:]
            if attribute == "derive":
                kept = ", ".join(name for name in names if name != "Drop")
                self.cut(first, close, f"#[derive({kept})]" if kept else "")
            elif attribute == "derive_where":
                impls = [derived(trait, name, generics, fields) for trait in names]
                if None in impls:
                    self.fail(first, "unknown derive_where")
                self.cut(first, close)
                self.new[end - 1] = self.at(end - 1) + "".join(impls)
        return end

    def block(self, head, i):
        """Turns a trait or an impl into Rust, and returns the token behind it."""
        start, word = i, self.at(i)
        while self.at(i) not in ("{", ";"):
            i += 1
        title, end = self.plain(start, i), self.braces(i)
        if word == "impl" and re.search(r"\bModel for\b", title):
            self.cut(head, end)
            return end
        if word == "impl" and re.search(r"\bDrop for\b", title):
            self.items(i + 1, end - 1, "impl", "Drop")
            if not TAKES_APART.fullmatch(self.plain(i + 1, end - 1)):
                self.fail(start, "a drop that does more than take the value apart")
            self.cut(head, end)
            return end
        name = re.sub(r"^impl ?(<.*?>)? ?", "", title) if word == "impl" else re.match(r"trait (\w+)", title)[1]
        self.generic = word == "trait" or bool(re.match(r"impl<(?!\'\w+>)", title))
        self.items(i + 1, end - 1, word, name)
        self.generic = False
        is_bare = not self.code(i + 1, end - 1).strip()
        if word == "trait" and is_bare and "ghost" in self.text[i:end]:
            self.ghost_trait(start, name, end)
        if word == "impl" and " for " in name and name.split(" for ")[0].split("<")[0] in rules.GHOST_TRAITS:
            if not is_bare:
                self.fail(start, "an impl of a ghost trait with a body")
            self.cut(head, end)
        return end

    def ghost_trait(self, start, name, end):
        """Adds an impl for all types to a trait that has ghost members alone, unless it is a marker."""
        if name in rules.GHOST_TRAITS:
            self.new[end - 1] = "}" + rules.GHOST_TRAITS.apply(name)
        elif name in rules.MARKERS:
            rules.MARKERS.apply(name)
        else:
            self.fail(start, "a trait with ghost members alone: is it a marker?")
