"""What ./show must do with words, and say to words, files and edits that are wrong."""
import re

from common import TOP

# A text of 12 bytes and 3 lines: `ä` takes two.
TEXT = "= A\n\nHäuser"
MOST_BYTES = 1 << 26
# A text whose page isn't whole: a paragraph of 23 nodes, and how often it comes.
PARAGRAPH, PARAGRAPHS = "= Trees\n\nEach *strong part* is a node, and `raw` too.\n\n", 900
# The words for a page of a large text, its files, and what is said of an edit past the text.
LARGE, LARGE_FILES = ["a.typ", "--page"], {"a.typ": PARAGRAPH * PARAGRAPHS, "e": '0..99999999 ""\n'}
SHORTER = f"but the text has only {len(PARAGRAPH) * PARAGRAPHS} bytes"
FORMS = '; an edit is written 7..12 "text" or 2:5..2:9 "text"'
BOUND = "the most that can be shown"
ENDS_OF_LINES = ["\n", "\r\n", "\r", "\v", "\f", "\x85", "\u2028", "\u2029"]
ENDS = "there is no tree at the end: put `root` after the line that makes the last node"
TOO_DEEP = f"after this line nodes nest in more than 1000 levels, {BOUND}"
NO_LINES = "expected a first and a last line, which count from 1, as in --lines 3-8"
NO_REMARK = "the last node can't have this remark: a hint needs an error or a warning, and A..B must be bytes of the node's text"
NO_WORD = "the first word of this line is unknown: {} lists the words that begin a line"
NO_NODES = "the stack has too few nodes for this line ({}): add the others before it"
# A chain of 601 nodes, and a replacement that puts it into another chain, below the parent of that chain's leaf.
CHAIN = "leaf 6 a\n" + "inner 5 1\n" * 600
DOWN = "replace " + ".".join(["0"] * 599) + " 0 1 1\n"
# What is wrong, the words, the files, the wanted standard error, and the wanted status. The file text.typ is always there.
WRONG = [
    ("no such file", ["none.typ"], {}, "none.typ: there is no such file", 3),
    ("a folder", ["folder"], {}, "folder: this is a folder: name a file", 3),
    ("no UTF-8", ["a.typ"], {"a.typ": b"ab\xff"}, "a.typ: this isn't UTF-8 text: no character begins at byte 2", 3),
    ("a character cut off", ["a.typ"], {"a.typ": b"a\xc3"}, "a.typ: this isn't UTF-8 text: no character begins at byte 1", 3),
    ("a large text", ["a.typ"], {"a.typ": MOST_BYTES + 1}, f"a.typ: this file has more than {MOST_BYTES} bytes, {BOUND}: split it", 3),
    ("no edits", ["text.typ", "--edits", "none"], {}, "none: there is no such file", 3),
    ("twice standard input", ["-", "--edits", "-"], {}, "standard input can't be both the text and its edits: name a file for one of them", 2),
    ("an edit past the text", "1..99 \"\"", {}, "e:1: the edit ends at byte 99, but the text has only 12 bytes", 2),
    ("an edit within a character", "7..12 \"\"", {}, "e:1: the edit starts at byte 7, inside the character at bytes 6..8", 2),
    ("an edit backwards", "5..3 \"\"", {}, "e:1: the edit ends at byte 3, before its start at byte 5", 2),
    ("no such line", "\n9:1..9:1 \"\"", {}, "e:2: the edit starts in line 9, but the text has only 3 lines", 2),
    ("no such column", "3:1..3:9 \"\"", {}, "e:1: the edit ends at 3:9, but line 3 has only 6 characters", 2),
    *((f"a column at a line end {end!r}", ["text.typ", "--edits", "e"], {"text.typ": f"abcd{end}x", "e": '1:7..1:7 ""'}, "e:1: the edit starts at 1:7, but line 1 has only 4 characters", 2) for end in ENDS_OF_LINES),
    ("no range", "x", {}, "e:1:1: expected a byte, or a line and a column" + FORMS, 2),
    ("no end", "1 \"\"", {}, "e:1:2: expected `..`" + FORMS, 2),
    ("two kinds of places", "1:1..3 \"\"", {}, "e:1:7: expected `:` and a column" + FORMS, 2),
    ("line 0", "0:1..1:1 \"\"", {}, "e:1:1: expected a line from 1" + FORMS, 2),
    ("no text", "1..2", {}, "e:1:5: expected a blank" + FORMS, 2),
    ("no quotes", "1..2 ab", {}, "e:1:6: expected a text in quotes" + FORMS, 2),
    ("no closing quote", "1..2 \"ab", {}, "e:1:9: expected a closing quote" + FORMS, 2),
    ("an unknown escape", "1..2 \"\\x\"", {}, "e:1:8: expected one of the escapes n, r, t, 0, \\, \", ' and u{..}" + FORMS, 2),
    ("no character", "1..2 \"\\u{d800}\"", {}, "e:1:9: expected the hexadecimal digits of a character in braces" + FORMS, 2),
    ("more after the quotes", "1..2 \"\" ", {}, "e:1:8: expected the end of the line" + FORMS, 2),
    ("a number too large", "99999999999999999999..1 \"\"", {}, "e:1:1: expected a byte, or a line and a column" + FORMS, 2),
    ("a page into a folder", ["text.typ", "--page", "folder"], {}, "folder: this is a folder: name a file", 3),
    ("a page into no folder", ["text.typ", "--page", "none/p"], {}, "none/p: cannot write it: No such file or directory (os error 2)", 3),
    ("a page on a full disk", ["text.typ", "--page", "/dev/full"], {}, "/dev/full: cannot write it: No space left on device (os error 28)", 3),
    ("a large page on a full disk", [*LARGE, "/dev/full"], LARGE_FILES, "/dev/full: cannot write it: No space left on device (os error 28)", 3),
    ("an edit past a large page", [*LARGE, "-", "--edits", "e"], LARGE_FILES, f"e:1: the edit ends at byte 99999999, {SHORTER}", 2),
    ("no FILE", [], {}, re.compile(r"error: the following required arguments were not provided:\n  <FILE>\n"), 2),
    ("no look", ["none.look"], {}, "none.look: there is no such file", 3),
    ("edits of a script", ["a.script", "--edits", "e"], {"a.script": "leaf 6 a\nroot\n", "e": ""}, "a.script: --edits edits a text, but this is a script: edit its tree by its own lines `replace` and `run`", 2),
    ("an empty script", ["a.script"], {"a.script": ""}, f"a.script: {ENDS}", 2),
    ("a script with no root", ["a.script"], {"a.script": "leaf 6 a\n"}, f"a.script: {ENDS}", 2),
    ("a script with an unknown word", ["a.script"], {"a.script": "leaf 6 a\ntree\n"}, f"a.script:2: {NO_WORD.format('docs/SCRIPT.md')}", 2),
    ("a look with an unknown word", ["a.look"], {"a.look": "trees 1\n"}, f"a.look:1: {NO_WORD.format('docs/LOOK.md')}", 2),
    ("a remark in a script", ["a.script"], {"a.script": "leaf 6 a\nhint x\n"}, f"a.script:2: {NO_WORD.format('docs/SCRIPT.md')}", 2),
    ("a kind of errors", ["a.script"], {"a.script": "\nleaf 1 a\n"}, "a.script:2: expected `leaf K TEXT` with a kind from 0 to 136 but 1, and a blank before the text, as in `leaf 6 ab`", 2),
    ("no tab", ["a.script"], {"a.script": "error a b\n"}, "a.script:1: expected `error MESSAGE<tab>TEXT` with a tab between message and text, as in `error wrong<tab>ab`", 2),
    ("no numbers", ["a.look"], {"a.look": "warnat 1 x\n"}, "a.look:1: expected `warnat A B MESSAGE` with two bytes, as in `warnat 0 2 careful`", 2),
    ("too few nodes", ["a.script"], {"a.script": "leaf 6 a\ninner 5 2\n"}, f"a.script:2: {NO_NODES.format('1 of 2')}", 2),
    ("several nodes at the root", ["a.script"], {"a.script": "leaf 6 a\nleaf 6 b\nroot\n"}, "a.script:3: `root` needs a single node on the stack, but the stack has 2: put `inner K 2` before it", 2),
    ("no node at the root", ["a.script"], {"a.script": "root\n"}, f"a.script:1: {NO_NODES.format('0 of 1')}", 2),
    ("no tree to number", ["a.script"], {"a.script": "number 1 2 9\n"}, "a.script:1: there is no tree yet: put `root` before this line", 2),
    ("a run without numbers", ["a.script"], {"a.script": "leaf 6 a\nroot\nrun\n"}, "a.script:3: the tree isn't numbered yet: put `number 1 2 140737488355328` before this line", 2),
    ("a carriage return", ["a.script"], {"a.script": "leaf 6 a\ninner 5 1\r\n"}, "a.script:2: this line ends with a carriage return: remove all carriage returns, since a line feed alone ends a line", 2),
    ("a hint on a text", ["a.look"], {"a.look": "leaf 6 a\nhint x\n"}, f"a.look:2: {NO_REMARK}", 2),
    ("a warning about too much", ["a.look"], {"a.look": "leaf 6 a\nwarnat 0 2 x\n"}, f"a.look:2: {NO_REMARK}", 2),
    ("a script that nests", ["a.script"], {"a.script": "leaf 6 a\n" + "inner 5 1\n" * 1000 + "root\n"}, f"a.script:1001: {TOO_DEEP}", 2),
    ("a look that nests warnings", ["a.look"], {"a.look": "leaf 6 a\n" + "warnat 0 1 b\n" * 1000}, f"a.look:1001: {TOO_DEEP}", 2),
    ("edits that nest", ["a.script"], {"a.script": CHAIN + "root\nnumber 1 2 140737488355328\n" + CHAIN + DOWN}, f"a.script:1205: {TOO_DEEP}", 2),
    ("an unknown kind", ["text.typ", "--kind", "Headin"], {}, "--kind Headin: there is no such kind: docs/KINDS.md lists them, as in --kind Heading", 2),
    *((f"lines {word}", ["text.typ", "--lines", word], {}, f"--lines {word}: {NO_LINES}", 2) for word in ("x", "0", "0-3", "3-2", "1-", "1-2-3", "1..2")),
    ("an unknown word", ["text.typ", "--trees"], {}, re.compile(r"error: unexpected argument '--trees' found\n"), 2),
    ("trees of two kinds", ["text.typ", "--plain", "--views"], {}, re.compile(r"error: the argument '--plain' cannot be used with '--views'\n"), 2),
    ("words that conflict", ["text.typ", "--plain", "--page", "x"], {}, re.compile(r"error: the argument '--plain' cannot be used with '--page <OUT.html>'\n"), 2),
]
# Words, and what they ask for: the form, the file, the edits and the page.
ASKED = [
    (["a.typ"], "tree", "a.typ", "", ""),
    (["-"], "tree", "-", "", ""),
    (["-", "--plain"], "plain", "-", "", ""),
    (["--plain", "a.typ"], "plain", "a.typ", "", ""),
    (["--edits", "e", "a.typ"], "tree", "a.typ", "e", ""),
    (["a.typ", "--edits=e", "--plain"], "plain", "a.typ", "e", ""),
    (["a.typ", "--edits", "-"], "tree", "a.typ", "-", ""),
    (["a.typ", "--edits=-"], "tree", "a.typ", "-", ""),
    (["-", "--edits", "e"], "tree", "-", "e", ""),
    # A value after `=` may begin with a hyphen, and may have a further `=`.
    (["a.typ", "--edits=--views"], "tree", "a.typ", "--views", ""),
    (["--edits=a=b", "a.typ"], "tree", "a.typ", "a=b", ""),
    # Only the file tells whether a tree is built by a script.
    (["--edits", "e.script", "a.typ"], "tree", "a.typ", "e.script", ""),
    (["script"], "tree", "script", "", ""),
    # After `--` each word is a file.
    (["--", "a.typ"], "tree", "a.typ", "", ""),
    (["a.typ", "--"], "tree", "a.typ", "", ""),
    (["--", "--views"], "tree", "--views", "", ""),
    (["--plain", "--", "-h"], "plain", "-h", "", ""),
    (["--", "--"], "tree", "--", "", ""),
    (["--", "-"], "tree", "-", "", ""),
    (["two words\nand a line.typ"], "tree", "two words\nand a line.typ", "", ""),
    ([" "], "tree", " ", "", ""),
    (["\u00e4 $x `y` 'z' \"w\" \\ *"], "tree", "\u00e4 $x `y` 'z' \"w\" \\ *", "", ""),
    (["a.typ", "--views"], "views", "a.typ", "", ""),
    (["--views", "-"], "views", "-", "", ""),
    (["--views", "--edits", "e", "a.typ"], "views", "a.typ", "e", ""),
    (["a.typ", "--page", "p.html"], "page", "a.typ", "", "p.html"),
    (["a.typ", "--page", "-"], "page", "a.typ", "", "-"),
    (["-", "--page=-", "--edits=e"], "page", "-", "e", "-"),
    # A page has what views answer.
    (["a.typ", "--views", "--page", "p"], "page", "a.typ", "", "p"),
    (["--page=a.look", "a.typ"], "page", "a.typ", "", "a.look"),
    (["--page", "a.script", "a.typ"], "page", "a.typ", "", "a.script"),
    (["--page=--plain", "a.typ"], "page", "a.typ", "", "--plain"),
    (["a.script"], "tree", "a.script", "", ""),
    ([".look"], "tree", ".look", "", ""),
    (["--plain", "a.look"], "plain", "a.look", "", ""),
    (["--views", "a.look"], "views", "a.look", "", ""),
    (["a.look", "--page", "p"], "page", "a.look", "", "p"),
    (["--", "-a.look"], "tree", "-a.look", "", ""),
]
NEEDED = "the following required arguments were not provided:\n  <FILE>"
NO_EDITS = "a value is required for '--edits <EDITS>' but none was supplied"
NO_PAGE = "a value is required for '--page <OUT.html>' but none was supplied"
# Words that --kind and --plain can't be used with.
KINDLESS = [("--page", ["p"], "--page <OUT.html>"), ("--views", [], "--views"), ("--plain", [], "--plain")]
BARE = [(["--depth", "1"], "--depth <N>"), (["--lines", "1"], "--lines <A-B>"), (["--places"], "--places")]
# Words that are refused, and what `clap` says first.
REFUSED = [
    ([], NEEDED),
    (["--plain"], NEEDED),
    (["--"], NEEDED),
    (["--edits", "e"], NEEDED),
    ([""], "a value is required for '<FILE>' but none was supplied"),
    (["a.typ", "b.typ"], "unexpected argument 'b.typ' found"),
    (["a.typ", ""], "unexpected argument '' found"),
    (["a.typ", "--", "--views"], "unexpected argument '--views' found"),
    (["a.typ", "--trees"], "unexpected argument '--trees' found"),
    (["a.typ", "--edit", "e"], "unexpected argument '--edit' found"),
    (["a.typ", "--Plain"], "unexpected argument '--Plain' found"),
    (["a.typ", "-p"], "unexpected argument '-p' found"),
    (["--trees", "--help"], "unexpected argument '--trees' found"),
    (["a.typ", "--edits"], NO_EDITS),
    (["a.typ", "--edits="], NO_EDITS),
    (["a.typ", "--edits", ""], NO_EDITS),
    (["--edits", "--views", "a.typ"], NO_EDITS),
    (["--edits", "--", "a.typ"], NO_EDITS),
    (["a.typ", "--page"], NO_PAGE),
    (["--page", "--views", "a.typ"], NO_PAGE),
    (["--page=", "a.typ"], NO_PAGE),
    (["--plain=x", "a.typ"], "unexpected value 'x' for '--plain' found; no more were expected"),
    (["--views=", "a.typ"], "unexpected value '' for '--views' found; no more were expected"),
    (["a.typ", "--plain", "--plain"], "the argument '--plain' cannot be used multiple times"),
    (["--views", "--views", "a.typ"], "the argument '--views' cannot be used multiple times"),
    (["--edits=e", "a.typ", "--edits", "e"], "the argument '--edits <EDITS>' cannot be used multiple times"),
    (["--page=p", "--page=p", "a.typ"], "the argument '--page <OUT.html>' cannot be used multiple times"),
    (["a.typ", "--plain", "--views"], "the argument '--plain' cannot be used with '--views'"),
    *((["a.typ", "--kind", "Text", word, *value], f"the argument '--kind <KIND>' cannot be used with '{shown}'") for word, value, shown in KINDLESS),
    *((["a.typ", "--plain", *words], f"the argument '--plain' cannot be used with '{shown}'") for words, shown in BARE),
    (["a.typ", "--depth", "x"], "invalid value 'x' for '--depth <N>': invalid digit found in string"),
    (["a.typ", "--depth=-1"], "invalid value '-1' for '--depth <N>': invalid digit found in string"),
    # A conflict is told at the word that came first.
    (["--page=p", "a.typ", "--plain"], "the argument '--page <OUT.html>' cannot be used with '--plain'"),
]
VERSION = f"show {(TOP / 'VERSION').read_text()}"
HELP = """\
Shows the syntax tree of a text or a script

Usage: ./show [OPTIONS] <FILE>

Arguments:
  <FILE>  The text or script whose tree is shown; - reads a text from standard input

Options:
      --edits <EDITS>    Makes the edits in this file, and says what each did; - reads them from standard input
      --page <OUT.html>  Writes a page for a browser; - writes it to standard output
      --views            Shows below each node what its view answers
      --plain            Shows only kinds and texts; with --edits only the tree after all edits
      --kind <KIND>      Shows only the nodes of this kind, a line each, with their lines and columns
      --depth <N>        Shows only nodes with at most this many nodes above them
      --lines <A-B>      Shows only the nodes of these lines of the text
      --places           Shows the line and column of each node
  -h, --help             Print help
  -V, --version          Print version

FILE is a text of Typst. If its name ends in .script or .look, it is a script or a look, which builds a tree.
Each line of EDITS is an edit: 7..12 "text" in bytes, or 2:5..2:9 "text" in lines and columns, which count from 1.
In the quotes the escapes are those of Rust. docs/SHOW.md explains what is shown.
The status is 0 if the text has no error, 1 if it has one, 2 if the words, an edit or a script are wrong, and 3 if a file
can't be read or written or memory runs out.
"""
# Words that ask for help or for the version, wherever they stand before a word that is refused, and what is printed.
EXPLAINED = [
    (["--help"], HELP),
    (["-h"], HELP),
    (["a.typ", "--help"], HELP),
    (["a.typ", "--plain", "-h", "--trees"], HELP),
    (["--version"], VERSION),
    (["-V"], VERSION),
    (["a.typ", "--version"], VERSION),
]
# Words that ./show itself is given, and standard input.
GIVEN = [
    (["text.typ"], b""),
    (["--edits", "e", "text.typ"], b""),
    (["-", "--plain"], TEXT.encode()),
    (["text.typ", "--edits=-"], b'0..1 "=="\n'),
    (["a b\nc.look", "--views"], b""),
    (["--", "--views"], b""),
    (["text.typ", "--page", "-"], b""),
    (["none.typ"], b""),
    (["--edits", "bad", "text.typ"], b""),
    (["--help"], b""),
    (["--trees"], b""),
]
