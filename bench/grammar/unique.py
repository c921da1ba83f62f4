"""Names that come again in a node, for bench/grammar/machine.py: they become errors, and so does a second sink."""
from grammar.nodes import error


def unique(what, node):
    """The node with an error for each name that comes again."""
    if node.children is None:
        return node
    if what == "argument":
        return with_names(node, what, set())
    if what == "key":
        return with_keys(node)
    return with_pattern(node, what, set())


def named(node, what, seen):
    """A name, or a string by its value, that may have been seen."""
    if node.kind not in ("Ident", "Str"):
        return node
    name = node.text[1:-1] if node.kind == "Str" else node.text
    if name in seen:
        return error(node.text, f"duplicate {what}: {name}")
    seen.add(name)
    return node


def with_first(node, change):
    return node.with_children([change(node.children[0]), *node.children[1:]]) if node.children else node


def with_names(node, what, seen):
    """The names of arguments."""

    def name(child):
        return named(child, what, seen) if child.kind == "Ident" else child

    return node.with_children([with_first(child, name) if child.kind == "Named" else child for child in node.children])


def with_keys(node):
    """The keys of dictionaries, those of inner ones apart."""
    if node.children is None or node.kind not in ("Array", "Dict", "Parenthesized"):
        return node
    seen = set()

    def item(child):
        if child.kind not in ("Named", "Keyed"):
            return with_keys(child)
        first, *others = child.children
        return child.with_children([with_keys(named(first, "key", seen)), *map(with_keys, others)])

    return node.with_children(map(item, node.children))


def with_pattern(node, what, seen):
    """The names of parameters or of a pattern, and one sink in each list. `what` is sink where names may come again."""
    if node.kind == "Ident" and what != "sink":
        return named(node, what, seen)
    if node.children is None or node.kind not in ("Params", "Destructuring", "Parenthesized"):
        return node
    sinks = 0
    children = []
    for child in node.children:
        if child.kind == "Spread":
            sinks += 1
            sort = "argument" if node.kind == "Params" else "destructuring"
            child = child.with_children([with_pattern(it, what, seen) for it in child.children])
            if sinks > 1:
                child = error(child.full_text(), f"only one {sort} sink is allowed")
        elif child.kind == "Named" and node.kind == "Params":
            child = with_first(child, lambda it: with_pattern(it, what, seen))
        elif child.kind == "Named":
            child = child.with_children([child.children[0], *(with_pattern(it, what, seen) for it in child.children[1:])])
        else:
            child = with_pattern(child, what, seen)
        children.append(child)
    return node.with_children(children)
