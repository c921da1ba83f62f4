"""Small trees that were worked out by hand, and what ./show must print of them and of the texts in examples/."""
from common import TOP
from shown.trees import beginning, numbered, printed, printed_edit, quoted_of, tree_of

# The tree of a paragraph of shown.words.
PARAGRAPH_TREE = """\
  Heading
    HeadingMarker "="
    Space " "
    Markup
      Text "Trees"
  Parbreak "\\n\\n"
  Text "Each"
  Space " "
  Strong
    Star "*"
    Markup
      Text "strong part"
    Star "*"
  Space " "
  Text "is a node, and"
  Space " "
  Raw
    RawDelim "`"
    Text "raw"
    RawDelim "`"
  Space " "
  Text "too."
  Parbreak "\\n\\n"
"""
# The trees of examples/mistake.typ before its edit and after it, and of a text with raw text. They were worked out by hand, by the
# rules of docs/SYNTAX.md.
BEFORE = """\
Markup
  Heading
    HeadingMarker "="
    Space " "
    Markup
      Text "Trees"
  Parbreak "\\n\\n"
  Text "See"
  Space " "
"""
MISTAKE = f"""{BEFORE}\
  Strong
    Error "*": unclosed delimiter
    Markup
      Text "this tree."
      Space "\\n"
"""
CLOSED = f"""{BEFORE}\
  Strong
    Star "*"
    Markup
      Text "this tree"
    Star "*"
  Text "."
  Space "\\n"
"""
OWN = """\
Markup
  Strong
    Error "*": unclosed delimiter
    Markup
      Text "Not closed,"
      Space " "
      Error "`raw\\n": unclosed raw text
"""
HEADED = """\
Markup
  Heading
    HeadingMarker "="
    Space " "
    Markup
      Text "A"
  Space "\\n"
"""
# What the views of its nodes answer, in the lines of a look (docs/SCRIPT.md). A space has no view.
HEADED_ANSWERS = [
    "- Markup.exprs [0, 1]",
    *(f"{at}.{what}" for at in ("0 Heading", "0.2.0 Text") for what in ("hash false", "is_literal false", "bindings []")),
    "0 Heading.body 0.2",
    "0 Heading.depth 1",
    "0.2 Markup.exprs [0.2.0]",
    '0.2.0 Text.get "A"',
]
# The block that the edit is in, after the paragraph break.
PARSED = range(9, 26)
# The edit of examples/letter.typ: the line before which a line is inserted, that line, and the lines of the tree that it makes. Below is
# how the block begins that the edit is in, and the block after it. The letter's tree was worked out by the plain machine, and read.
LETTER_EDIT = ("- All other", "- New nodes get numbers between those beside them.\n", """\
  ListItem
    ListMarker "-"
    Space " "
    Markup
      Text "New nodes get numbers between those beside them."
  Space "\\n"
""")
LETTER_BLOCK, LETTER_NEXT = "- An edit", "- All other"
# Remarks, and what is printed of them below the tree.
REMARKS = "leaf 6 a\tb\nwarnat 1 2 odd\nhint write less\nerror wrong\t日本\nhintat 0 3 here\nhint there\ninner 5 2\nroot\n"
REMARKED = """
error: wrong
 --> a.look:1:4
  |
1 | a    b日本
  |       ^^^^
  = hint: here
  = hint: there

warning: odd
 --> a.look:1:2
  |
1 | a    b日本
  |  ^^^^
  = hint: write less
"""


def letter():
    """What is printed of the letter plainly, and with its edit."""
    file, (place, line, inserted) = "examples/letter.typ", LETTER_EDIT
    text, plain = (TOP / file).read_text(), (TOP / "examples/letter.tree").read_text()
    lines, number = plain.splitlines(keepends=True), text[: text.index(place)].count("\n") + 1
    at = next(index for index, it in enumerate(lines) if place[2:] in it) - 4
    old, new = numbered(tree_of(plain)), tree_of("".join([*lines[:at], inserted, *lines[at:]]))
    new.place()
    parsed = range(text.index(LETTER_BLOCK), text.index(LETTER_NEXT) + len(line))
    edit = f"{number}:1..{number}:1 {beginning(quoted_of(line))}"
    return plain, printed(old, file) + printed_edit(edit, old, new, parsed, file)


def mistake_of(edit):
    """What the example with a mistake prints if its edit is written like this."""
    old, new = numbered(tree_of(MISTAKE)), numbered(tree_of(CLOSED))
    first = printed(old, "examples/mistake.typ")
    return first + printed_edit(edit, old, new, PARSED, "examples/mistake.typ")
