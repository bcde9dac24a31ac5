"""The impls that `derive_where` stands for."""

import re

# the trait, by the name in `derive_where`, and the body of its impl; {fields} is made of the line below for each field
EQUAL = "\n    #[inline]\n    fn eq(&self, other: &Self) -> bool {{\n        {fields}\n    }}\n"
PARTIAL = """
    #[inline]
    fn partial_cmp(&self, other: &Self) -> Option<core::cmp::Ordering> {{
        Some(self.cmp(other))
    }}
"""
ORDER = "\n    #[inline]\n    fn cmp(&self, other: &Self) -> core::cmp::Ordering {{\n        {fields}\n    }}\n"
HASH = "\n    fn hash<H: core::hash::Hasher>(&self, state: &mut H) {{\n        {fields}\n    }}\n"
DEBUG = """
    fn fmt(&self, f: &mut core::fmt::Formatter<'_>) -> core::fmt::Result {{
        f.debug_struct("{name}"){fields}.finish()
    }}
"""
IMPLS = {
    "PartialEq": ("PartialEq", EQUAL, "self.{0} == other.{0}", " && "),
    "Eq": ("Eq", "", "", ""),
    "PartialOrd": ("PartialOrd", PARTIAL, "", ""),
    "Ord": ("Ord", ORDER, "self.{0}.cmp(&other.{0})", ".then_with(|| "),
    "Hash": ("core::hash::Hash", HASH, "self.{0}.hash(state);", "\n        "),
    "Debug": ("core::fmt::Debug", DEBUG, '.field("{0}", &self.{0})', ""),
}


def derived(trait, name, generics, fields):
    """Returns the impl of a trait for a struct with these fields (names and types), without bounds on its parameters; None if
    it is unknown."""
    fields = [field for field, kind in fields if not kind.startswith("PhantomData")]
    if trait not in IMPLS or trait == "Ord" and len(fields) != 1:
        return None
    path, body, line, between = IMPLS[trait]
    arguments = re.sub(r":[^,>]*", "", generics)
    body = body.format(name=name, fields=between.join(line.format(field) for field in fields))
    return f"\n\nimpl{generics} {path} for {name}{arguments} {{{body}}}"
