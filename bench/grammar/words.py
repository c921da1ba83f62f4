"""Words, lists and arms, as bench/grammar_crate.py writes them in code and in specs."""

WIDTH = 100  # of a line of code


def camel(name):
    """A name of a variant: each word begins with a capital letter."""
    return "".join(part.capitalize() for part in name.replace("`", "").replace(".", " ").replace("-", " ").split())


def snake(name):
    return name.replace(".", "_")


def head_of(what):
    """A sentence without its full stop."""
    return what[0].upper() + what[1:]


def flat(head, tail):
    """A line, or two if it would be too long."""
    return head + tail if len(head + tail) <= WIDTH else f"{head.rstrip()} {{\n            {tail.removesuffix(',')}\n        }}"


def list_in_code(indent, head, items, tail):
    """A list of values in one line, or with a value a line."""
    inline = f"&[{', '.join(items)}]"
    if len(inline) <= 62 and len(indent + head + inline + tail) <= WIDTH:
        return f"{indent}{head}{inline}{tail}"
    inner = "".join(f"{indent}    {item},\n" for item in items)
    return f"{indent}{head}&[\n{inner}{indent}]{tail}"


def arm(enum, variants, rows):
    """An arm of a match: in one line, with its rows below it, or with a variant a line."""
    patterns = [f"{enum}::{name}" for name in variants] or ["_"]
    head = f"        {' | '.join(patterns)} => &["
    line = f"{head}{', '.join(rows)}],"
    if len(line) <= WIDTH:
        return line
    if len(head) <= WIDTH:
        return f"{head}\n            {', '.join(rows)},\n        ],"
    return "        " + "\n        | ".join(patterns) + f" => &[{', '.join(rows)}],"


def list_in_specs(items):
    return "".join(f"{item} ∷ " for item in items) + "[]"
