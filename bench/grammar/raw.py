"""Raw text for the plain lexer of bench/grammar/lexer.py."""
import re

from grammar.nodes import Node

NEWLINE = re.compile("\r\n|[\n\x0b\x0c\r\x85\u2028\u2029]")


def is_name_start(c):
    return c == "_" or c.isidentifier()


def is_name_part(c):
    return c == "-" or ("a" + c).isidentifier()


def is_blank(line):
    return line.strip() == ""


def indent(line):
    return len(line) - len(line.lstrip())


def lines_of(text):
    """The lines of a text, and the newlines between them."""
    ends = [found.group() for found in NEWLINE.finditer(text)]
    return NEWLINE.split(text), ends


def raw(text, i):
    """Raw text that begins at a backtick."""
    count = re.compile("`+").match(text, i).end() - i
    delimiter = Node("RawDelim", "`" * count)
    if count == 2:
        delimiter = Node("RawDelim", "`")
        return "Raw", "Raw", i + 2, "", Node("Raw", children=(delimiter, delimiter))
    end = text.find(delimiter.text, i + count)
    if end < 0:
        return "Error", "Error", len(text), "unclosed raw text"
    body = text[i + count : end]
    children = lines_of_one(body) if count == 1 else lines_of_block(body)
    return "Raw", "Raw", end + count, "", Node("Raw", children=(delimiter, *children, delimiter))


def lines_of_one(body):
    """The children between two single backticks."""
    lines, ends = lines_of(body)
    yield Node("Text", lines[0])
    for end, line in zip(ends, lines[1:]):
        yield Node("RawTrimmed", end)
        yield Node("Text", line)


def lines_of_block(body):
    """The children between two runs of backticks."""
    if body and is_name_start(body[0]):
        tag = next((at for at, c in enumerate(body) if not is_name_part(c)), len(body))
        yield Node("RawLang", body[:tag])
        body = body[tag:]
    lines, ends = lines_of(body)
    dedent = min([indent(line) for line in lines[1:] if not is_blank(line)] + [indent(lines[-1])])
    trimmed, rest = "", ""  # what the next line begins with, and what is left before the closing delimiter
    if is_blank(lines[-1]):
        rest = (ends[-1] if ends else "") + lines.pop()
    elif lines[-1].rstrip().endswith("`") and lines[-1].endswith(" "):
        lines[-1], rest = lines[-1][:-1], " "
    for at, line in enumerate(lines):
        if at == 0 and is_blank(line):
            trimmed = line
            continue
        cut = min(dedent, len(line)) if at else int(line[0] == " ")
        trimmed += (ends[at - 1] if at else "") + line[:cut]
        if at or trimmed:
            yield Node("RawTrimmed", trimmed)
        trimmed = ""
        yield Node("Text", line[cut:])
    if trimmed + rest:
        yield Node("RawTrimmed", trimmed + rest)
