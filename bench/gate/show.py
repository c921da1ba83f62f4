#!/usr/bin/env python3
"""Runs the program behind ./show, and compares what it prints with what it must print.

    bench/gate/show.py [--program FILE]

`bench/shown/` works out what the program must print, apart from it, from trees that no program here made:

- each text of crates/typst_language_tests/data must give the tree next to it, with --plain and without, and turn into the
  next text by an edit; bench/grammar/texts.py names the few that are left out;
- each tree of crates/typst_run whose views were asked must give with --views the answers that are written there;
- `examples/mistake.typ` and `examples/letter.typ` with their edits, a text, and the program's own run of a look with remarks must give
  what the small trees of shown/examples.py and `examples/letter.tree` say, and the files with the wanted output must be the same;
- each wrong input of shown/words.py must give its message and status, and print nothing;
- words must be read as the tables there say, by the rules that the documents of `clap` give;
- the status must say whether the tree that is shown last has an error, with each form;
- where the build is the proved one, ./show itself must do as the runs here do;
- a page must have the text and the answers as text, even where they are markup;
- the letters of a page must stand out from what is behind them, in both modes;
- a page must have at most 20 bytes for each byte of its text and a megabyte, tell what it leaves out, and be the same in pieces and as a
  whole;
- a part of a tree, its nodes of a kind, their places, and colours must be as the small trees say.

It runs the proved build, which `rt ci` and `rt run` make, or the given program.
"""
import os
import sys
import tempfile
from pathlib import Path

sys.path.insert(0, str(Path(__file__).resolve().parents[1]))
from common import TOP, chosen, ended, first_other, ran
from grammar.texts import DATA, OTHERS
from shown import looks
from shown import page as show_page
from shown import trees
from shown.examples import HEADED, HEADED_ANSWERS, OWN, PARAGRAPH_TREE, REMARKED, REMARKS, letter, mistake_of
from shown.words import ASKED, ENDS_OF_LINES, EXPLAINED, GIVEN, PARAGRAPH, PARAGRAPHS, REFUSED, TEXT, WRONG

TEXTS = sorted(it for it in DATA.glob("*.typ") if it.stem not in OTHERS)
# Without these the program draws without colours.
SETTINGS = {name: value for name, value in os.environ.items() if name not in ("CLICOLOR_FORCE", "NO_COLOR")}
# The most bytes that a page may have for each byte of its text, and besides.
PAGE_BYTES, PAGE_MORE = 20, 1 << 20
# How many paragraphs are inserted at one place. For the fifteenth the first window is too narrow.
TYPED = 16
# Texts with the most errors, the most lines, and the most markup for their bytes.
DENSE = ["#" * 90_000, "$(" * 40_000, "#(a: 1," * 9000, "*" * 100 + "\n\n" * 9 + "a\n\n*" * 9000, "\n" * 50_000, "<&>" * 30_000, "*&*" * 20_000, "\0`a`" * 9_000, "- " * 30_000, "-\n" * 30_000]
# Settings, and whether there are colours.
COLOURS = [
    ({"CLICOLOR_FORCE": "1"}, True),
    ({"CLICOLOR_FORCE": "1", "NO_COLOR": ""}, True),
    ({"CLICOLOR_FORCE": "1", "NO_COLOR": "1"}, False),
    ({"CLICOLOR_FORCE": "0"}, False),
    ({"CLICOLOR_FORCE": ""}, False),
    ({"NO_COLOR": "1"}, False),
]


def run(program, words, room, given=b"", **settings):
    """A run of the program, without colours unless the settings ask for them."""
    return ran([program, *words], cwd=room, input=given, env=SETTINGS | settings)


def misread(program):
    """Where words are refused or explained otherwise than the tables say."""
    wanted = [(words, text.encode(), "", 0) for words, text in EXPLAINED]
    wanted += [(words, b"", f"error: {said}\n", 2) for words, said in REFUSED]
    wrong = []
    for words, printed, said, status in wanted:
        done = run(program, words, TOP)
        told = done.stderr.decode()
        is_said = told.startswith(said) if said else not told
        if not is_said or (done.stdout, done.returncode) != (printed, status):
            got = f"status {done.returncode}, {done.stdout!r} and {told!r}"
            wrong.append(f"{words} give {got}, and should give {status}, {printed!r} and {said!r}")
    return wrong


class Named:
    """Files of which each has a text of its own, so that what is printed tells which of them was read."""

    def __init__(self, room):
        self.room, self.words = room, {}

    def word(self, name):
        """The text of a file."""
        return self.words.setdefault(name, f"w{len(self.words)}")

    def write(self, name, is_edits=False):
        """Writes a text, a script, a look, or edits that put their word before the text. Returns the contents."""
        built = f"leaf 6 {self.word(name)}\ninner 5 1\nroot\n"
        text = f'0..0 "{self.word(name)}"\n' if is_edits else built if name.endswith((".script", ".look")) else self.word(name)
        if name != "-":
            fill(self.room, {name: text})
        return text.encode()

    def tree(self, *names):
        """The tree of the words of these files, one after the other."""
        return trees.numbered(trees.tree_of(f'Markup\n  Text "{"".join(map(self.word, names))}"\n'))


def does_as_asked(program, words, form, file, edits, page):
    """What differs between what words do and what they ask for."""
    with tempfile.TemporaryDirectory() as room:
        named = Named(room)
        text = named.write(file)
        lines = named.write(edits, is_edits=True) if edits else b""
        given = lines if edits == "-" else text
        done = run(program, words, room, given)
        printed = Path(room, page).read_text() if page not in ("", "-") else done.stdout.decode()
        old, new = named.tree(file), named.tree(edits, file) if edits else None
    if (done.stderr, done.returncode) != (b"", 0):
        return [f"{words} end with {done.returncode} and {done.stderr!r}"]
    last = new or old
    if form == "plain":
        wanted = f"Markup\n  Text {trees.beginning(last.children[0].characters())}\n"
    elif form == "tree":
        wanted = trees.printed(old, file)
        if edits:
            wanted += trees.printed_edit(f'0..0 "{named.word(edits)}"', old, new, range(last.end), file)
    elif form == "page":
        wanted, printed = [it.text() for it in (old, new) if it], [step["text"] for step in show_page.Page(printed).steps]
    else:
        # The answers have a line for each accessor. Those of the text name it.
        wanted = [f'get: "{it.text()}"' for it in (old, new) if it]
        printed = [line.strip(" │") for line in printed.splitlines() if " get: " in line]
    return [] if printed == wanted else [f"{words} give {printed!r}, and should give {wanted!r}"]


def otherwise_shown(program):
    """Where ./show itself, which must run the proved build, does otherwise than the runs here."""
    wrong = []
    files = {"text.typ": TEXT, "--views": "= B\n", "e": '0..1 "=="\n', "bad": "x\n", "a b\nc.look": "leaf 6 a\nroot\n"}
    with tempfile.TemporaryDirectory() as room:
        fill(room, files)
        for words, given in GIVEN:
            done = run(TOP / "show", words, room, given)
            wanted = run(program, words, room, given)
            said = done.stderr.removeprefix(b"run: the proved build\n")
            if (done.stdout, said, done.returncode) != (wanted.stdout, wanted.stderr, wanted.returncode):
                wrong.append(f"./show {words} ends with {done.returncode}, {done.stdout!r} and {done.stderr!r}")
    return wrong


def fill(room, files):
    """Writes the files. A file's contents are bytes or a text, or a number of bytes for a sparse file."""
    for name, what in files.items():
        path = Path(room, name)
        if isinstance(what, int):
            with path.open("wb") as it:
                it.truncate(what)
        else:
            path.write_bytes(what if isinstance(what, bytes) else what.encode())


def told_wrong(program, what, words, files, message, status):
    """What differs for a wrong input. If the words are one text, that text is the edits of text.typ."""
    if isinstance(words, str):
        words, files = ["text.typ", "--edits", "e"], {"e": words}
    with tempfile.TemporaryDirectory() as room:
        Path(room, "folder").mkdir()
        fill(room, {"text.typ": TEXT} | files)
        done = run(program, words, room)
    said = done.stderr.decode()
    is_said = said == message + "\n" if isinstance(message, str) else message.match(said)
    wrong = [] if is_said else [f"{what}: standard error is {said!r}, and should be {message!r}"]
    # Before an edit that doesn't fit, the tree of the text is printed.
    is_edit = "--edits" in words and isinstance(message, str) and ": the edit " in message
    if done.stdout and not is_edit:
        wrong.append(f"{what}: it prints {done.stdout[:80]!r}")
    if done.returncode != status:
        wrong.append(f"{what}: the status is {done.returncode}, and should be {status}")
    return wrong


def status_of(root):
    """The status after a tree: 1 if it has an error."""
    return int(any(node.message is not None for _, node in root.preorder()))


def tree_beside(text):
    return trees.numbered(trees.tree_of(text.with_suffix(".tree").read_bytes().decode()))


def differing_pairs(program):
    """What differs between trees of texts, with --plain and without."""
    wrong = []
    for text in TEXTS:
        plain = trees.without_remarks(text.with_suffix(".tree").read_bytes().decode()).encode()
        drawing = trees.printed(tree_beside(text), text.name).encode()
        piped = trees.printed(tree_beside(text), "-").encode()
        for words, given, wanted in (
            ([text.name, "--plain"], b"", plain),
            (["-", "--plain"], text.read_bytes(), plain),
            ([text.name], b"", drawing),
            (["-"], text.read_bytes(), piped),
        ):
            done = run(program, words, DATA, given)
            if (done.stdout, done.stderr, done.returncode) != (wanted, b"", status_of(tree_beside(text))):
                wrong.append(f"{text.name}: {' '.join(words)} gives another tree, or ends with {done.returncode}: {done.stderr!r}")
    return wrong


def differing_edits(program):
    """What differs if an edit turns each text into the next one."""
    wrong = []
    for text, other in zip(TEXTS, TEXTS[1:] + TEXTS[:1]):
        old, new = tree_beside(text), tree_beside(other)
        edit = f"0..{old.end} {trees.beginning(new.characters())}"
        wanted = trees.printed(old, text.name)
        wanted += trees.printed_edit(edit, old, new, range(new.end), text.name)
        done = run(program, [text.name, "--edits", "-"], DATA, edit.encode())
        if (done.stdout.decode(), done.stderr, done.returncode) != (wanted, b"", status_of(new)):
            wrong.append(f"{text.name}: the edit to {other.name} gives another output, or ends with {done.returncode}: {done.stderr!r}")
    return wrong


def differing_views(program):
    """What differs between the trees of looks with the answers of their views, and how many trees there are."""
    wrong, count = [], 0
    form_of, kind_of = looks.forms(), looks.kinds()
    with tempfile.TemporaryDirectory() as room:
        for name, lines, answers in looks.looks():
            root = looks.built(lines, kind_of)
            wanted = "\n".join(trees.drawn(root, looks.answers_of(root, answers, form_of)))
            Path(room, "a.look").write_bytes("\n".join(lines).encode(errors="surrogateescape"))
            done = run(program, ["a.look", "--views"], room)
            got = done.stdout.decode().partition("\n\n")[0].rstrip("\n")
            count += 1
            page = show_page.Page(run(program, ["a.look", "--page", "-"], room).stdout.decode())
            told = page.wrong + show_page.differing_step(page.steps[0], 0, root, looks.answers_of(root, answers, form_of))
            wrong += [f"look {name}: its page has {it}" for it in told]
            if got != wanted or done.stderr or done.returncode != status_of(root):
                wrong.append(f"look {name}: with --views {first_other(got, wanted)}; it ends with {done.returncode}: {done.stderr!r}")
    return wrong, count


def differing_pages(program):
    """What differs in the pages of texts, each with the edit that makes the next one of it."""
    wrong = []
    for text, other in zip(TEXTS, TEXTS[1:] + TEXTS[:1]):
        old, new = tree_beside(text), tree_beside(other)
        edit = f"0..{old.end} {trees.beginning(new.characters())}"
        done = run(program, [text.name, "--edits", "-", "--page", "-"], DATA, edit.encode())
        page = show_page.Page(done.stdout.decode())
        told = [*page.wrong, *([] if done.returncode == status_of(new) else [f"status {done.returncode}, {done.stderr!r}"])]
        change = trees.edited(old, new, range(len(old.children)), range(len(new.children)))
        if len(page.steps) == 2:
            told += show_page.differing_step(page.steps[0], 0, old) + show_page.differing_step(page.steps[1], 1, new)
            told += show_page.differing_drawing(page.steps[1], change)
        else:
            told.append(f"{len(page.steps)} steps")
        if page.title != trees.told_of(edit, new, range(new.end), change):
            told.append(f"the title {page.title!r}")
        wrong += [f"the page of {text.name} has {it}" for it in told]
    return wrong


def typed():
    """Paragraphs that are inserted at one place, one by one, until a window is too narrow: each tree with the change of its edit."""
    paragraph = '  Text "a"\n  Parbreak "\\n\\n"\n'
    tree, steps = trees.numbered(trees.tree_of("Markup\n" + 2 * paragraph)), []
    for count in range(TYPED):
        new = trees.tree_of("Markup\n" + (3 + count) * paragraph)
        new.place()
        # The block before the place is parsed anew, up to the end of the inserted block.
        steps.append((new, trees.edited(tree, new, range(2), range(4))))
        tree = new
    return steps


def differing_typing(program):
    """What differs if a window has no room, so that several are tried."""
    steps = typed()
    edit = '3..3 "a\\n\\n"'
    titles = [trees.told_of(edit, new, range(6), change, at + 1) for at, (new, change) in enumerate(steps)]
    with tempfile.TemporaryDirectory() as room:
        fill(room, {"a.typ": "a\n\na\n\n", "e": f"{edit}\n" * TYPED})
        printed = run(program, ["a.typ", "--edits", "e"], room).stdout.decode()
        page = show_page.Page(run(program, ["a.typ", "--edits", "e", "--page", "-"], room).stdout.decode())
    told = [] if max(len(change.windows) for _, change in steps) > 1 else ["each first window has room"]
    wanted = "".join(f"\n{title}\n\n{trees.printed(new, 'a.typ')}" for title, (new, _) in zip(titles, steps))
    if not printed.endswith(wanted) or len(page.steps) != TYPED + 1:
        told.append(f"{printed!r} with {len(page.steps)} steps, and should end with {wanted!r}")
    for at, (step, (new, change)) in enumerate(zip(page.steps[1:], steps)):
        told += show_page.differing_step(step, at + 1, new) + show_page.differing_drawing(step, change)
        told += [] if step["title"] == titles[at] else [f"the title {step['title']!r}"]
    return [f"typing has {it}" for it in told]


def differing_paste(program):
    """What differs in the page of an edit that numbers more children than are drawn."""
    paragraph, count = '  Text "a"\n  Parbreak "\\n\\n"\n', 40
    old, new = trees.numbered(trees.tree_of("Markup\n" + paragraph)), trees.tree_of("Markup\n" + count * paragraph)
    new.place()
    change = trees.edited(old, new, range(2), range(2 * count))
    with tempfile.TemporaryDirectory() as room:
        fill(room, {"a.typ": "a\n\n", "e": '0..3 "' + count * "a\\n\\n" + '"\n'})
        page = show_page.Page(run(program, ["a.typ", "--edits", "e", "--page", "-"], room).stdout.decode())
    told = [*page.wrong, *show_page.differing_step(page.steps[1], 1, new), *show_page.differing_drawing(page.steps[1], change)]
    if page.steps[1]["left_out"] != f"{2 * count - show_page.MOST} more children after these aren't drawn.":
        told.append(f"{page.steps[1]['left_out']!r} after its drawing")
    return [f"the paste has {it}" for it in told]


def part_of(root, page):
    """Which nodes of a tree the first step of a page shows. Where the page is full, these are the first ones in preorder."""
    count = len(page.steps[0]["nodes"])
    indices = {path: at for at, (path, _) in enumerate(root.preorder())}
    return lambda node, path: indices[path] < count


def large_pages(program):
    """Whether the page of a large text, which is written in pieces, is the same in a file and on standard output, and is that of a text
    with an edit, which is written at once, up to the edit. Whether it is as large as it may be, tells what it leaves out, and shows that
    where its lines are asked for."""
    root = trees.numbered(trees.tree_of("Markup\n" + PARAGRAPH_TREE * PARAGRAPHS))
    with tempfile.TemporaryDirectory() as room:
        fill(room, {"a.typ": PARAGRAPH * PARAGRAPHS, "e": '2..7 "Leaves"\n'})
        pages = [run(program, ["a.typ", *edits, "--page", "-"], room).stdout for edits in ([], ["--edits", "e"])]
        run(program, ["a.typ", "--page", "a.html"], room)
        saved = Path(room, "a.html").read_bytes()
        last = 4 * PARAGRAPHS
        rest = show_page.Page(run(program, ["a.typ", "--page", "-", "--lines", f"{last - 7}-{last}"], room).stdout.decode())
    page, most = show_page.Page(pages[0].decode()), PAGE_BYTES * root.end + PAGE_MORE
    wrong = [f"a large page has {it}" for it in page.wrong + show_page.differing_step(page.steps[0], 0, root, has=part_of(root, page), file="a.typ")]
    asked = trees.within(root, lines=(last - 7, last))
    wrong += [f"a page of its last lines has {it}" for it in show_page.differing_step(rest.steps[0], 0, root, has=asked)]
    if not most / 4 < len(pages[0]) <= most or len(pages[1]) > 2 * most:
        wrong.append(f"large pages have {[len(it) for it in pages]} bytes, and may have {most} for each text")
    if saved != pages[0]:
        wrong.append(f"a large page has {len(saved)} bytes in a file, and {len(pages[0])} others on standard output")
    if not pages[1].startswith(pages[0].rpartition(b"<script>")[0]):
        wrong.append("a large page that is written in pieces isn't the beginning of the one with an edit")
    return wrong


def differing_lines(program):
    """What differs for errors that go over the end of a line, of each sort, in the terminal and on a page."""
    wrong = []
    for end in ENDS_OF_LINES:
        text = f"a{end}ä `raw{end}more{end}"
        kinds = [("Text", "a"), ("Space", end), ("Text", "ä"), ("Space", " "), ("Error", f"`raw{end}more{end}")]
        leaves = [trees.Node(kind, trees.quoted_of(own), message="unclosed raw text" if kind == "Error" else None) for kind, own in kinds]
        root = trees.numbered(trees.Node("Markup", children=leaves))
        with tempfile.TemporaryDirectory() as room:
            fill(room, {"a.typ": text})
            got = run(program, ["a.typ"], room).stdout.decode()
            page = show_page.Page(run(program, ["a.typ", "--page", "-"], room).stdout.decode())
        wanted = trees.printed(root, "a.typ")
        wrong += [] if got == wanted else [f"{text!r} gives {got!r}, and should give {wanted!r}"]
        wrong += [f"the page of {text!r} has {it}" for it in page.wrong + show_page.differing_step(page.steps[0], 0, root)]
    return wrong


def dense_pages(program):
    """Texts whose pages have the most bytes for each of theirs: too large ones."""
    wrong = []
    for text in DENSE:
        with tempfile.TemporaryDirectory() as room:
            fill(room, {"a.typ": text, "e": '0..0 "a"\n'})
            for edits in ([], ["--edits", "e"]):
                size = len(run(program, ["a.typ", *edits, "--page", "-"], room).stdout)
                most = (PAGE_BYTES * len(text.encode()) + PAGE_MORE) * (1 + bool(edits))
                wrong += [] if 0 < size <= most else [f"the page of {text[:9]!r}.. has {size} bytes, and may have {most}"]
    return wrong


def differing_parts(program):
    """What differs where only a part of a tree is asked for, or places, nodes of a kind, or colours."""
    wrong = []
    for text in TEXTS:
        root = tree_beside(text)
        whole = root.text()
        asked = ({"depth": 1}, {"lines": (2, 3)}, {"depth": 2, "lines": (1, 1)}, {})
        parts = [trees.within(root, **it) for it in asked]
        drawings = [trees.drawn(root, has=has, text=whole if at == 3 else None) for at, has in enumerate(parts)]
        below = "".join(line + "\n" for line in trees.reports(root, text.name))
        of_kind = "".join(trees.row(node, whole) + "\n" for _, node in root.preorder() if node.kind == "Text")
        calls = [["--depth", "1"], ["--lines", "2-3"], ["--depth", "2", "--lines", "1"], ["--places"]]
        wanted = ["\n".join(tree) + "\n" + below for tree in drawings]
        for words, printed in [*zip(calls, wanted), (["--kind", "text"], of_kind)]:
            done = run(program, [text.name, *words], DATA)
            if (done.stdout.decode(), done.stderr, done.returncode) != (printed, b"", status_of(root)):
                wrong.append(f"{text.name} {words}: {first_other(done.stdout.decode(), printed)}, status {done.returncode}")
        plain, bright = trees.printed(root, text.name), trees.coloured(trees.printed(root, text.name))
        for settings, printed in COLOURS:
            got = run(program, [text.name], DATA, **settings).stdout.decode()
            wanted = bright if printed else plain
            wrong += [] if got == wanted else [f"{text.name} {settings}: {first_other(got, wanted)}"]
    return wrong


def escaped(program):
    """Whether markup in a text, in its name and in an edit is text in a page."""
    markup = "<script>alert(1)</script> & \"'\0\n"
    with tempfile.TemporaryDirectory() as room:
        fill(room, {"<b>.typ": markup, "e": '0..0 "<i>"\n'})
        done = run(program, ["<b>.typ", "--edits", "e", "--page", "-"], room)
    written = done.stdout.decode()
    page = show_page.Page(written)
    texts = [step["text"] for step in page.steps]
    wanted = [show_page.signed(markup), show_page.signed("<i>" + markup)]
    wrong = [f"a page of markup has {it}" for it in page.wrong]
    if texts != wanted or done.returncode or done.stderr:
        wrong.append(f"a page of markup has the texts {texts!r}; status {done.returncode}, {done.stderr!r}")
    wrong += show_page.contrasts(written)
    count, outside = show_page.scripts_in(written)
    if count != 1 or outside or "\0" in written or "&lt;b&gt;.typ" not in written:
        wrong.append(f"a page of markup has {count} scripts, another's file ({outside}), a byte 0, or another name")
    return wrong


def differing_remarks(program):
    """What differs in the reports of a page with an error, a warning and hints, and in their links."""
    with tempfile.TemporaryDirectory() as room:
        fill(room, {"a.look": REMARKS})
        step = show_page.Page(run(program, ["a.look", "--page", "-"], room).stdout.decode()).steps[0]
    # The nodes are the root, the text with the warning, and the error; the leaves are the last two.
    wanted = [("error 1:4 wronghint: herehint: there", ["#t0-2", "#n0-2"]), ("warning 1:2 oddhint: write less", ["#t0-1", "#n0-1"])]
    got = [(it["told"].replace("\n", ""), it["links"]) for it in step["reports"]]
    wrong = [] if got == wanted else [f"a page of remarks has the reports {got}, and should have {wanted}"]
    places = {"t0-1": 0, "t0-2": 1, "n0-1": 1, "n0-2": 2}
    return wrong + ([] if step["anchors"] == places else [f"the links of a page of remarks lead to {step['anchors']}, and should lead to {places}"])


def examples(program):
    """What differs in the example, in the example with its edit written in bytes, in remarks, and in the program's own run."""
    by_column, in_bytes = mistake_of('3:15..3:15 "*"'), mistake_of('23..23 "*"')
    own = trees.printed(trees.numbered(trees.tree_of(OWN)), "a.typ")
    headed = trees.numbered(trees.tree_of(HEADED))
    answered = "\n".join(trees.drawn(headed, looks.answers_of(headed, HEADED_ANSWERS, looks.forms()))) + "\n"
    remarked = "\n".join(trees.drawn(trees.numbered(looks.built(REMARKS.split("\n"), looks.kinds())))) + "\n" + REMARKED
    with tempfile.TemporaryDirectory() as room:
        fill(room, {"a.look": REMARKS})
        look = run(program, ["a.look"], room).stdout.decode()
        fill(room, {"a.typ": "*Not closed, `raw\n", "b.typ": "= A\n"})
        raw = run(program, ["a.typ"], room).stdout.decode()
        views = run(program, ["b.typ", "--views"], room).stdout.decode()
    mistake, (plain, edited) = ["examples/mistake.typ", "--edits"], letter()
    compared = [
        ("examples/mistake.stdout", (TOP / "examples/mistake.stdout").read_text(), by_column),
        ("examples/mistake.typ", run(program, [*mistake, "examples/mistake.edits"], TOP).stdout.decode(), by_column),
        ("examples/letter.typ plainly", run(program, ["examples/letter.typ", "--plain"], TOP).stdout.decode(), plain),
        ("examples/letter.typ", run(program, ["examples/letter.typ", "--edits", "examples/letter.edits"], TOP).stdout.decode(), edited),
        ("an edit in bytes", run(program, [*mistake, "-"], TOP, b'23..23 "\\u{2a}"\n').stdout.decode(), in_bytes),
        ("a look with remarks", look, remarked),
        ("a text with raw text", raw, own),
        ("a text with its views", views, answered),
        ("crates/typst_show/stdout", (TOP / "crates/typst_show/stdout").read_text(), remarked),
    ]
    return [f"{name}: {first_other(got, wanted)}" for name, got, wanted in compared if got != wanted]


def main():
    program, is_proved = chosen(__doc__, "typst_show")
    wrong = [line for row in WRONG for line in told_wrong(program, *row)]
    different, views = differing_views(program)
    wrong += misread(program) + [line for row in ASKED for line in does_as_asked(program, *row)]
    wrong += otherwise_shown(program) if is_proved else []
    wrong += differing_pairs(program) + differing_edits(program) + different
    wrong += differing_pages(program) + differing_typing(program) + differing_paste(program) + large_pages(program) + escaped(program)
    wrong += differing_parts(program) + dense_pages(program) + differing_lines(program)
    wrong += examples(program) + differing_remarks(program)
    counts = f"{len(TEXTS)} texts with their trees and edits, {views} trees with their answers, {len(WRONG)} wrong inputs"
    counts += f", {len(ASKED) + len(REFUSED) + len(EXPLAINED)} lists of words"
    return ended(wrong, f"{counts}, {len(wrong)} differences")


if __name__ == "__main__":
    sys.exit(main())
