"""Use declarations: the tree of names taken apart, and put together again without those that Rust lacks."""


def leaves(tree, prefix=""):
    """Returns the paths of a use tree, each with its new name or ''."""
    head, brace, rest = tree.partition("{")
    if not brace:
        path, _, name = tree.partition(" as ")
        return [(prefix + path.strip(), name.strip())]
    found, depth, part = [], 0, ""
    for c in rest[: rest.rindex("}")] + ",":
        depth += {"{": 1, "}": -1}.get(c, 0)
        if c == "," and depth == 0:
            if part.strip():
                found += leaves(part.strip(), prefix + head)
            part = ""
        else:
            part += c
    return [(path.removesuffix("::self"), name) for path, name in found]


def joined(paths):
    """Returns paths with those of one parent as one."""
    groups = {}
    for path in paths:
        parent, _, leaf = path.rpartition("::")
        groups.setdefault(parent, []).append(leaf)
    lines = []
    for parent, names in groups.items():
        names = names[0] if len(names) == 1 else "{" + ", ".join(names) + "}"
        lines.append(f"{parent}::{names}" if parent else names)
    return lines


def rewritten(tree, change):
    """Returns the declarations that a tree becomes if `change` is made to each path ('' cuts it), or None if nothing changes."""
    before = leaves(tree)
    after = [(change(path), name) for path, name in before]
    if after == before:
        return None
    return joined([path + (f" as {name}" if name else "") for path, name in after if path])
