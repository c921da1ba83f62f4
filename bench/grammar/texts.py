"""The texts that have trees beside them, and texts by chance.

A valid text is made along the grammar, and has no error. A soup is pieces in any order.
"""
from common import TOP

DATA = TOP / "crates/typst_language_tests/data"
# Texts with errors whose trees may be others, with the reason.
OTHERS = {
    "bad_dicts": "a colon that comes first makes a dictionary of `(: 1)`, and not a parenthesis",
    "bad_import": "what follows an item of an import is the next item, with the comma that is missing before it",
    "bad_math_args": "a name without a value has no node for the blanks behind its colon",
    "bad_set_show": "the colon that a show rule lacks is told behind its selector, not before it",
}
WORDS = "a word Übung x1 3.5 été 日本 don't a-b h see:this 1-2 e.g. naïve".split()
NAMES = "a b x f value foo-bar _y größe".split()
MATH_NAMES = "pi alpha arrow.r sqrt vec mat lim".split()
SOUP = """# $ * _ [ ] ( ) { } , ; : . .. ... = == != < <= > >= + - * / ^ & ! ' " ` ``` => += -= \\ ~ @ @a <a> <a // /* */ let set show if else
    for in while import include as return context not and or none auto true break continue a b foo x.y f( f[ f( 1 1.5 2pt 1e 0x1f "s" "s
    √ ∛ [| |] -> := 'x http://a.b https://a(b = == - + 1. / -- --- \\u{41} \\u{zz} \\# é 🙂 日 ⟨ ⟩ #let #set #show #if #f(x) #{ #[ $x$ $""".split()
SPACES = [" ", " ", " ", "\n", "\n\n", "\t", "  ", "\n  ", "", "", "", "", "", "\r\n", "\u00a0"]


def soup(chance):
    """Pieces in any order, with or without white space between them."""
    count = chance.randrange(1, 40)
    return "".join(chance.choice(SOUP) + chance.choice(SPACES) for _ in range(count))


def valid_text(chance):
    """A text without an error."""
    return Maker(chance).document()


class Maker:
    """Makes pieces of a text. Each is at most so deep."""

    def __init__(self, chance):
        self.chance = chance

    def one(self, *makers):
        return self.chance.choice(makers)()

    def some(self, low, high, make):
        return [make() for _ in range(self.chance.randint(low, high))]

    def maybe(self, text, odds=0.5):
        return text() if self.chance.random() < odds else ""

    # Markup.

    def document(self):
        return "".join(block + self.chance.choice(["\n", "\n\n", "\n \n"]) for block in self.some(1, 6, lambda: self.block(3)))

    def block(self, depth):
        line = lambda: self.line(depth)  # noqa: E731
        return self.one(
            line,
            line,
            lambda: f"{'=' * self.chance.randint(1, 3)} {self.words()}{self.maybe(lambda: ' <l>')}",
            lambda: self.items(depth, 0),
            lambda: f"/ {self.word()}: {line()}",
            lambda: f"// {self.words()}",
            lambda: f"#{self.statement(depth)}",
        )

    def items(self, depth, indent):
        """A list with the lists in it."""
        lines = []
        for _ in range(self.chance.randint(1, 3)):
            marker = self.chance.choice(["-", "+", "1."])
            lines.append(f"{' ' * indent}{marker} {self.line(depth - 1)}")
            if depth > 1 and self.chance.random() < 0.3:
                lines.append(self.items(depth - 1, indent + 2))
        return "\n".join(lines)

    def line(self, depth):
        return " ".join(self.some(1, 5, lambda: self.inline(depth)))

    def words(self):
        return " ".join(self.some(1, 4, lambda: self.one(self.word, lambda: f"*{self.word()}*", lambda: f"#{self.name()}")))

    def word(self):
        return self.chance.choice(WORDS)

    def inline(self, depth):
        makers = [self.word] * 4 + [self.mark]
        if depth > 0:
            makers += [
                lambda: f"*{self.word()} {self.word()}*",
                lambda: f"_{self.word()} *{self.word()}*_",
                lambda: f"_{self.word()} #{self.atom(depth - 1)}{self.chance.choice('.;!,')}_",
                lambda: f"*#{self.atom(depth - 1)}{self.chance.choice('.;:?')}*",
                lambda: f"[{self.line(depth - 1)}]",
                lambda: f"@ref[{self.line(depth - 1)}]",
                lambda: self.equation(depth - 1),
                lambda: f"#{self.atom(depth - 1)}{self.maybe(lambda: ';')}",
                lambda: f"#{self.statement(depth - 1)};",
            ]
        return self.one(*makers)

    def mark(self):
        return self.chance.choice(
            ["\\#", "\\u{1F600}", "\\ ", "--", "...", "~", "'q'", '"q"', "https://a.b/c(d)?e", "@ref", "`raw`", "```py x\n  y\n ```", "``",
             "/* c /* d */ */", "<label>", "a: b", "a = no", "- no"]
        )  # fmt: skip

    # Code.

    def name(self):
        return self.chance.choice(NAMES)

    def value(self):
        return self.chance.choice(["1", "1.5", "2pt", "50%", "0x1f", "1e3", '"s"', '"a\\"b"', "none", "auto", "true", "<l>", "`r`", ".5"])

    def atom(self, depth):
        """What may follow a hash."""
        makers = [self.name, self.name, self.value]
        if depth > 0:
            makers += [
                lambda: f"{self.name()}.{self.name()}",
                lambda: f"{self.name()}{self.arguments(depth - 1)}",
                lambda: f"{self.name()}.{self.name()}{self.arguments(depth - 1)}",
                lambda: self.content(depth - 1),
                lambda: self.braces(depth - 1),
                lambda: self.group(depth - 1),
                lambda: self.equation(depth - 1),
                lambda: self.conditional(depth - 1),
                lambda: f"for {self.pattern(depth - 1)} in {self.expr(depth - 1)} {self.braces(depth - 1)}",
                lambda: f"while {self.expr(depth - 1)} {self.content(depth - 1)}",
                lambda: f"context {self.atom(depth - 1)}",
            ]
        return self.one(*makers)

    def expr(self, depth):
        if depth <= 0:
            return self.one(self.name, self.value)
        inner = lambda: self.expr(depth - 1)  # noqa: E731
        operators = "+ - * / == != < <= > >= in and or = += -= *= /=".split() + ["not in"]
        return self.one(
            lambda: self.atom(depth),
            lambda: self.atom(depth),
            lambda: f"{inner()} {self.chance.choice(operators)} {inner()}",
            lambda: f"{self.chance.choice(['-', '+', 'not '])}{inner()}",
            lambda: f"{self.name()} => {inner()}",
            lambda: f"_ => {inner()}",
            lambda: f"({', '.join(self.params(depth - 1))}) => {inner()}",
            lambda: f"{inner()} . {self.name()}",
        )

    def arguments(self, depth):
        space = self.chance.choice(["", "", "\n", " "])
        items = self.some(0, 3, lambda: self.argument(depth)) + [f"{name}: {self.expr(depth)}" for name in self.names()]
        blocks = "".join(self.some(0, 1, lambda: self.content(depth)))
        return f"({space}{', '.join(items)}{',' if items and self.chance.random() < 0.2 else ''}{space}){blocks}"

    def argument(self, depth):
        return self.one(lambda: self.expr(depth), lambda: self.expr(depth), lambda: f"..{self.expr(depth)}")

    def names(self):
        """Names, none of them twice."""
        return self.chance.sample(NAMES, self.chance.randint(0, 2))

    def content(self, depth):
        space = self.chance.choice(["", " ", "\n"])
        return f"[{space}{self.line(depth)}{space}]"

    def braces(self, depth):
        lines = self.some(0, 3, lambda: self.one(lambda: self.expr(depth), lambda: self.statement(depth)))
        return "{" + self.chance.choice([" ", "\n"]) + "".join(line + self.chance.choice(["\n", "; ", " // c\n"]) for line in lines) + "}"

    def group(self, depth):
        items = lambda: self.some(2, 3, lambda: self.argument(depth))  # noqa: E731
        pairs = lambda: [f"{name}: {self.expr(depth)}" for name in self.chance.sample(NAMES, 2)] + [f'"k": {self.expr(depth)}']  # noqa: E731
        return self.one(
            lambda: f"({self.expr(depth)})",
            lambda: f"({self.expr(depth)},)",
            lambda: f"({', '.join(items())})",
            lambda: f"({', '.join(pairs())})",
            lambda: "()",
            lambda: "(:)",
        )

    def params(self, depth):
        names = self.chance.sample(NAMES, 4)
        made = [names[0], f"{names[1]}: {self.expr(depth)}", f"({names[2]}, _)", f"..{names[3]}", "_"]
        return self.chance.sample(made, self.chance.randint(0, 4))

    def pattern(self, depth):
        names = self.chance.sample(NAMES, 4)
        return self.chance.choice(
            [names[0], "_", f"({names[0]}, {names[1]})", f"({names[0]}, ..{names[1]})", f"({names[0]}: {names[1]}, {names[2]})",
             f"(({names[0]}, _), ..)", f"({names[0]},)", f"({names[0]})"]
        )  # fmt: skip

    def conditional(self, depth):
        other = self.chance.choice(["", f" else {self.content(depth)}", f" else if {self.name()} {{}}", f" else {{ {self.name()} }}"])
        return f"if {self.expr(depth)} {self.braces(depth)}{other}"

    def statement(self, depth):
        depth = max(depth, 1)
        inner = lambda: self.expr(depth - 1)  # noqa: E731
        return self.one(
            lambda: f"let {self.name()} = {inner()}",
            lambda: f"let {self.name()}({', '.join(self.params(depth - 1))}) = {inner()}",
            lambda: f"let {self.pattern(depth)} = {inner()}",
            lambda: f"set {self.name()}{self.arguments(depth - 1)}{self.maybe(lambda: ' if ' + inner(), 0.2)}",
            lambda: f"show {self.maybe(lambda: self.name())}: {inner()}",
            lambda: f'import "a.typ"{self.maybe(lambda: " as b")}{self.chance.choice(["", ": *", ": a, b.c as d", ": (a, b)"])}',
            lambda: f"include {inner()}",
            lambda: f"return {inner()}",
        )

    # Math.

    def equation(self, depth):
        space = self.chance.choice(["", " ", "\n"])
        return f"${space}{self.math(depth)}{space}$"

    def math(self, depth):
        return " ".join(self.some(1, 4, lambda: self.term(depth)))

    def term(self, depth):
        base = lambda: self.chance.choice(["x", "2", "pi", "y'", "1.5", "α", "n!", "arrow.r", '"t"', "∞"])  # noqa: E731
        if depth <= 0:
            return base()
        inner = lambda: self.math(depth - 1)  # noqa: E731
        # A comment alone is no value.
        value = lambda: f"{base()}{self.maybe(lambda: ' ' + inner())}"  # noqa: E731
        names = lambda: [f"{name}: {value()}" for name in self.chance.sample(["a", "row-gap", "_x"], 1)]  # noqa: E731
        return self.one(
            base,
            base,
            lambda: f"{base()}_{base()}^({inner()})",
            lambda: f"{base()}^2_{base()}",
            lambda: f"{self.term(depth - 1)}/({inner()})",
            lambda: f"√{base()}",
            lambda: f"({inner()})",
            lambda: f"[{inner()}, {inner()})",
            lambda: f"{self.chance.choice(MATH_NAMES)}({', '.join([inner(), *names()])}; {inner()})",
            lambda: f"#{self.atom(depth - 1)};",
            lambda: self.chance.choice(["&", "\\ ", "->", "<=>", "...", "\\#", "(, ;)", "|x|", "a'", "f'(x)", "x_a_b", "a/b/c", "/* c */"]),
            lambda: f"f(..{inner()})",
        )
