"""A plain lexer of Typst for bench/checks/grammar_corpus.py: white space and tokens in each mode.

It is written from the rules for tokens in words, and looks at a text anew for each token. The library's lexer is another program.
"""
import re
import unicodedata
from bisect import bisect_right
from dataclasses import dataclass, field
from functools import cached_property

from grammar.nodes import Node
from grammar.raw import is_name_part, raw

NEWLINES = set("\n\x0b\x0c\r\x85\u2028\u2029")
WHITE = NEWLINES | set("\t \xa0\u1680\u202f\u205f\u3000") | {chr(code) for code in range(0x2000, 0x200B)}
BLANKS_OF_MARKUP = NEWLINES | set("\t ")
KEYWORDS = set(
    "none auto true false not and or let set show context if else for in while break continue return import include as".split()
)
UNITS = set("pt mm cm in deg rad em fr %".split())
BASES = {"b": (2, "binary"), "o": (8, "octal"), "x": (16, "hexadecimal")}
SIGNS_OF_CODE = {
    "==": "EqEq", "!=": "ExclEq", "<=": "LtEq", ">=": "GtEq", "+=": "PlusEq", "-=": "HyphEq", "*=": "StarEq", "/=": "SlashEq",
    "..": "Dots", "=>": "Arrow", "{": "LeftBrace", "}": "RightBrace", "[": "LeftBracket", "]": "RightBracket", "(": "LeftParen",
    ")": "RightParen", "$": "Dollar", ",": "Comma", ";": "Semicolon", ":": "Colon", ".": "Dot", "+": "Plus", "-": "Minus",
    "*": "Star", "/": "Slash", "=": "Eq", "<": "Lt", ">": "Gt",
}  # fmt: skip
SIGNS_OF_MARKUP = {
    "#": "Hash", "[": "LeftBracket", "]": "RightBracket", "'": "SmartQuote", '"': "SmartQuote", "$": "Dollar", ":": "Colon",
    "~": "Shorthand",
}  # fmt: skip
SIGNS_OF_MATH = {
    ".": "Dot", ",": "Comma", ";": "Semicolon", "(": "LeftParen", ")": "RightParen", "#": "Hash", "_": "Underscore",
    "{": "LeftBrace", "}": "RightBrace", "$": "Dollar", "/": "Slash", "^": "Hat", "&": "MathAlignPoint", "√": "Root", "∛": "Root", "∜": "Root", "!": "Bang",
}  # fmt: skip
# The class of a kind, where it isn't one of its own.
CLASS_OF = {
    "Shorthand": "Text", "SmartQuote": "Text", "Link": "Text", "Int": "Literal", "Float": "Literal", "Numeric": "Literal",
    "Bool": "Literal", "None": "Constant", "Auto": "Constant", "Plus": "Sign", "Minus": "Sign", "EqEq": "Comparison",
    "ExclEq": "Comparison", "Lt": "Comparison", "LtEq": "Comparison", "Gt": "Comparison", "GtEq": "Comparison",
    "PlusEq": "Assignment", "HyphEq": "Assignment", "StarEq": "Assignment", "SlashEq": "Assignment", "MathShorthand": "MathText",
    "MathAlignPoint": "MathText",
}  # fmt: skip
SHORTHANDS = sorted(
    """... - * ~ != := ::= =: << <<< >> >>> <= >= -> --> |-> >-> ->> <- <-- <-< <<- <-> <--> ~> ~~> <~ <~~ => |=> ==> <== <=> <==>
    [| |] ||""".split(),
    key=len,
    reverse=True,
)
OPENING = set("([{⌈⌊⌜⌞❲⟦⟨⟪⟬⟮⦃⦅⦇⦉⦋⦍⦏⦑⦓⦕⦗⧘⧚⧼⎰⟅")
CLOSING = set(")]}⌉⌋⌝⌟❳⟧⟩⟫⟭⟯⦄⦆⦈⦊⦌⦎⦐⦒⦔⦖⦘⧙⧛⧽⎱⟆")
UNBALANCED = "automatic links cannot contain unbalanced brackets, use the `link` function instead"
LETTERS = re.compile(r"[A-Za-z0-9]*")
DIGITS = re.compile(r"[0-9]*")
SUFFIX = re.compile(r"[A-Za-z0-9%]*")
END_OF_COMMENT = "unexpected end of block comment"


def begins_name(c):
    return c == "_" or (c != "" and c.isidentifier())


def is_in_name(c):
    return c != "" and is_name_part(c)


def begins_math_name(c):
    return c not in ("", "_") and c.isidentifier()


def is_in_math_name(c):
    return c not in ("", "_") and ("a" + c).isidentifier()


def is_in_label(c):
    return is_in_name(c) or c in (".", ":")


def is_numeric(c):
    return c != "" and unicodedata.category(c) in ("Nd", "Nl", "No")


def is_alphabetic(c):
    """As the property says, but for marks that take no room, such as vowel signs of Thai: Python has no table of those."""
    return c != "" and (c.isalpha() or unicodedata.category(c) in ("Nl", "Mc"))


def is_wordy(c):
    """Whether a star next to the character may be a part of a word."""
    if not (is_alphabetic(c) or is_numeric(c)):
        return False
    name = unicodedata.name(c, "")
    return not re.search(r"\b(CJK|IDEOGRAPHIC|HIRAGANA LETTER|KATAKANA LETTER|HANGUL)\b", name)


def is_in_cluster(c):
    """Whether the character joins the one before it."""
    return c != "" and (unicodedata.category(c) in ("Mn", "Me", "Mc") or c in "\u200c\u200d" or "\U0001f3fb" <= c <= "\U0001f3ff")


def is_flag(c):
    return "\U0001f1e6" <= c <= "\U0001f1ff"


@dataclass(frozen=True)
class Token:
    """A token: its class, the kind of its node, where it ends, and what is wrong with it. Raw text is a node already."""

    token_class: str
    kind: str
    end: int
    message: str = ""
    node: Node | None = None


@dataclass
class Gap:
    """The white space and comments before a token: their nodes, where the token starts, and which newlines are among them."""

    nodes: list = field(default_factory=list)
    start: int = 0
    newline: bool = False
    parbreak: bool = False


class Lexer:
    """The tokens of a text. It remembers those that it has found."""

    def __init__(self, text):
        self.text, self.gaps, self.tokens = text, {}, {}

    @cached_property
    def lines(self):
        """Where the lines begin."""
        return [0] + [at + 1 for at, c in enumerate(self.text) if c in NEWLINES]

    def column(self, at):
        return at - self.lines[bisect_right(self.lines, at) - 1]

    def at(self, i):
        return self.text[i] if 0 <= i < len(self.text) else ""

    def run(self, i, belongs):
        """Where the run of characters ends that belong together."""
        while i < len(self.text) and belongs(self.text[i]):
            i += 1
        return i

    def before_blank(self, i):
        return self.at(i) == "" or self.at(i) in WHITE or self.text.startswith(("//", "/*"), i)

    # White space and comments.

    def gap(self, i, mode):
        blanks = "markup" if mode == "markup" else "code"
        if (i, blanks) not in self.gaps:
            self.gaps[i, blanks] = self.found_gap(i, blanks == "markup")
        found = self.gaps[i, blanks]
        return Gap(list(found.nodes), found.start, found.newline, found.parbreak)

    def found_gap(self, i, is_markup):
        gap = Gap()
        while part := self.trivia(i, is_markup):
            kind, end = part
            text = self.text[i:end]
            if kind == "Space":
                newlines = len(re.findall("\r\n|[" + "".join(NEWLINES) + "]", text))
                kind = "Parbreak" if is_markup and newlines > 1 else "Space"
                gap.newline |= newlines > 0
                gap.parbreak |= kind == "Parbreak"
            gap.nodes.append(Node(kind, text))
            i = end
        gap.start = i
        return gap

    def trivia(self, i, is_markup):
        blanks = BLANKS_OF_MARKUP if is_markup else WHITE
        if self.at(i) in blanks and self.at(i):
            return "Space", self.run(i, lambda c: c in blanks)
        if i == 0 and is_markup and self.text.startswith("#!"):
            return "Shebang", self.run(i, lambda c: c not in NEWLINES)
        if self.text.startswith("//", i):
            return "LineComment", self.run(i, lambda c: c not in NEWLINES)
        if self.text.startswith("/*", i):
            return "BlockComment", self.comment_end(i + 2)
        return None

    def comment_end(self, i):
        open_comments = 1
        for mark in re.compile(r"/\*|\*/").finditer(self.text, i):
            open_comments += 1 if mark[0] == "/*" else -1
            if open_comments == 0:
                return mark.end()
        return len(self.text)

    # Tokens.

    def token(self, i, mode):
        if (i, mode) not in self.tokens:
            found = self.found(i, mode)
            if len(found) == 2:
                found = (found[0], found[0], found[1])
            self.tokens[i, mode] = Token(CLASS_OF.get(found[0], found[0]), *found[1:])
        return self.tokens[i, mode]

    def found(self, i, mode):
        """A token: its class, its kind if that has another name, where it ends, and perhaps more."""
        if i >= len(self.text):
            return "End", i
        if self.text.startswith("*/", i):
            return "Error", "Error", i + 2, END_OF_COMMENT
        return getattr(self, mode)(i, self.text[i])

    def markup(self, i, c):
        if c == "\\":
            return self.backslash(i)
        if c == "`":
            return raw(self.text, i)
        if self.text.startswith(("http://", "https://"), i):
            return self.link(i)
        if c == "<" and is_in_name(self.at(i + 1)):
            return self.label(i)
        if c == "@" and is_in_name(self.at(i + 1)):
            end = self.run(i + 1, is_in_label)
            return "RefMarker", i + len(self.text[i:end].rstrip(".:"))
        for shorthand in ("...", "---", "--", "-?"):
            if self.text.startswith(shorthand, i):
                return "Shorthand", i + len(shorthand)
        if c == "-" and is_numeric(self.at(i + 1)):
            return "Shorthand", i + 1
        if c in "*_" and not (is_wordy(self.at(i - 1)) and is_wordy(self.at(i + 1))):
            return ("Star" if c == "*" else "Underscore"), i + 1
        if c in SIGNS_OF_MARKUP:
            return SIGNS_OF_MARKUP[c], i + 1
        return self.marker(i, c) or ("Text", self.text_end(i + 1))

    def marker(self, i, c):
        if c == "=" and self.before_blank(end := self.run(i, lambda d: d == "=")):
            return "HeadingMarker", end
        if c in "-+/" and self.before_blank(i + 1):
            return {"-": "ListMarker", "+": "EnumMarker", "/": "TermMarker"}[c], i + 1
        if c in "0123456789":
            end = DIGITS.match(self.text, i).end()
            if self.at(end) == ".":
                is_marker = self.before_blank(end + 1) and int(self.text[i:end]) < 2**64
                return ("EnumMarker", end + 1) if is_marker else ("Text", self.text_end(end + 1))
        return None

    def text_end(self, i):
        while i < len(self.text) and self.goes_on(i, self.text[i], self.at(i + 1)):
            i += 1
        return i

    def goes_on(self, i, c, following):
        """Whether text goes on over a character."""
        if c == " ":
            return is_alphabetic(following) or is_numeric(following)
        if c == "/":
            return following not in ("/", "*") or following == ""
        if c == "-":
            return following not in ("-", "?") and not is_numeric(following)
        if c == ".":
            return not self.text.startswith("...", i)
        if c == "h":
            return not self.text.startswith(("http://", "https://"), i)
        if c == "@":
            return not is_in_label(following)
        return c not in WHITE and c not in "\\[]~'\"*_:`$<>#"

    def backslash(self, i):
        if self.text.startswith("\\u{", i):
            end = LETTERS.match(self.text, i + 3).end()
            digits = self.text[i + 3 : end]
            if self.at(end) != "}":
                return "Error", "Error", end, "unclosed Unicode escape sequence"
            if re.fullmatch("[0-9a-fA-F]+", digits) and (int(digits, 16) < 0xD800 or 0xE000 <= int(digits, 16) < 0x110000):
                return "Escape", end + 1
            return "Error", "Error", end + 1, f"invalid Unicode codepoint: {digits}"
        if self.at(i + 1) == "" or self.at(i + 1) in WHITE:
            return "Linebreak", i + 1
        return "Escape", i + 2

    def link(self, i):
        end, open_brackets = i, []
        while end < len(self.text):
            c = self.text[end]
            if c in "([":
                open_brackets.append(")" if c == "(" else "]")
            elif c in ")]":
                if open_brackets[-1:] != [c]:
                    break
                open_brackets.pop()
            elif not (c.isascii() and c.isalnum() or c in "!#$%&*+,-./:;=?@_~'"):
                break
            end += 1
        end = i + len(self.text[i:end].rstrip("!,.:;?'"))
        return ("Error", "Error", end, UNBALANCED) if open_brackets else ("Link", end)

    def label(self, i):
        end = self.run(i + 1, is_in_label)
        return ("Label", end + 1) if self.at(end) == ">" else ("Error", "Error", end, "unclosed label")

    def string(self, i):
        end = re.compile(r'"(?:[^"\\]|\\.)*"', re.S).match(self.text, i)
        return ("Str", end.end()) if end else ("Error", "Error", len(self.text), "unclosed string")

    def code(self, i, c):
        following = self.at(i + 1)
        if c == "`":
            return raw(self.text, i)
        if c == "<" and is_in_name(following):
            return self.label(i)
        if c in "0123456789" or (c == "." and following and following in "0123456789"):
            return self.number(i)
        if c == '"':
            return self.string(i)
        return self.sign(i, c) or self.name(i, c) or ("Error", "Error", i + 1, f"the character `{c}` is not valid in code")

    def sign(self, i, c):
        two = ("-" if c == "\u2212" else c) + self.at(i + 1)
        if c == "." and begins_name(self.at(i + 1)) and self.text[i + 1 : self.run(i + 1, is_in_name)] != "_":
            return "Field", "Dot", i + 1
        for sign in (two, two[0]):
            if sign in SIGNS_OF_CODE:
                return SIGNS_OF_CODE[sign], i + len(sign)
        return None

    def name(self, i, c):
        if not begins_name(c):
            return None
        end = self.run(i, is_in_name)
        word, before = self.text[i:end], self.text[max(i - 2, 0) : i]
        is_part = before.endswith("@") or (before.endswith(".") and before != "..")
        if word in KEYWORDS and not is_part:
            return ("Bool" if word in ("true", "false") else word.capitalize()), end
        return ("Underscore" if word == "_" else "Ident"), end

    def operator(self, i, c):
        """Code where only an operator may come: all else is one class, and isn't cut."""
        found = self.sign(i, c)
        if found and found[0] == "Lt" and is_in_name(self.at(i + 1)) or self.at(i) == "." and self.at(i + 1).isdigit():
            found = None
        if not found and begins_name(c):
            name = self.name(i, c)
            found = name if name[0] not in ("Bool", "Ident", "Underscore") else None
        return found or ("Other", i)

    def number(self, i):
        if self.at(i) == "0" and self.at(i + 1) in BASES:
            return self.number_of_base(i, *BASES[self.at(i + 1)])
        end, is_float = DIGITS.match(self.text, i).end(), False
        if self.at(end) == "." and not self.text.startswith("..", end) and not begins_name(self.at(end + 1)):
            end, is_float = DIGITS.match(self.text, end + 1).end(), True
        if self.at(end) in ("e", "E") and not self.text.startswith("em", end):
            end, is_float = re.compile("[eE][+-]?[0-9]*").match(self.text, end).end(), True
        after = SUFFIX.match(self.text, end).end()
        digits, suffix = self.text[i:end], self.text[end:after]
        if digits[-1] in "eE+-":
            return "Error", "Error", after, f"invalid floating point number: {digits}"
        if suffix and suffix not in UNITS:
            return "Error", "Error", after, f"invalid number suffix: {suffix}"
        if suffix:
            return "Numeric", after
        return ("Float" if is_float or int(digits) >= 2**63 else "Int"), after

    def number_of_base(self, i, base, name):
        end = (LETTERS if base == 16 else DIGITS).match(self.text, i + 2).end()
        after = SUFFIX.match(self.text, end).end()
        digits = self.text[i + 2 : end]
        try:
            fits = int(digits, base) < 2**63
        except ValueError:
            fits = False
        if not fits:
            return "Error", "Error", after, f"invalid {name} number: {self.text[i:end]}"
        if end < after:
            return "Error", "Error", after, f"{name} numbers cannot have a suffix"
        return "Int", after

    def math(self, i, c):
        if c == "\\":
            return self.backslash(i)
        if c == '"':
            return self.string(i)
        for shorthand in SHORTHANDS:
            if self.text.startswith(shorthand, i):
                sides = {"[|": "Opening", "|]": "Closing"}
                return sides.get(shorthand, "MathShorthand"), "MathShorthand", i + len(shorthand)
        if c == "'":
            return "MathPrimes", self.run(i, lambda d: d == "'")
        if c == "." and begins_math_name(self.at(i + 1)):
            return "Field", "Dot", i + 1
        if c in SIGNS_OF_MATH:
            return SIGNS_OF_MATH[c], i + 1
        # A letter number, such as a Roman one, may begin a name.
        if is_numeric(c) and not (begins_math_name(c) and is_in_math_name(self.at(i + 1))):
            end = self.run(i, is_numeric)
            if self.at(end) == "." and is_numeric(self.at(end + 1)):
                end = self.run(end + 1, is_numeric)
            return "MathText", end
        return self.math_word(i, c)

    def math_word(self, i, c):
        cluster = self.cluster_end(i)
        if begins_math_name(c) and (end := self.run(i, is_in_math_name)) > cluster:
            return "MathIdent", end
        if cluster == i + 1 and c in OPENING | CLOSING:
            return ("Opening" if c in OPENING else "Closing"), "MathText", cluster
        return ("MathLetter" if is_alphabetic(c) else "MathText"), "MathText", cluster

    def cluster_end(self, i):
        """Where the grapheme cluster ends: flags, marks and joiners, but no syllables of Hangul in parts."""
        end = i + 1
        if is_flag(self.text[i]) and is_flag(self.at(end)):
            end += 1
        while is_in_cluster(self.at(end)) or (self.text[end - 1] == "\u200d" and unicodedata.category(self.at(end) or "a") == "So"):
            end += 1
        return end

    def argument(self, i, c):
        """Math where an argument begins: it may have a name or be spread."""
        if self.text.startswith("..", i) and not self.text.startswith("...", i):
            if self.at(i + 2) not in WHITE | {"", ",", ";", ")", "$"}:
                return "Dots", i + 2
        if begins_name(c):
            end = self.run(i, is_in_name)
            if self.at(end) == ":" and not self.text.startswith((":=", "::="), end):
                is_blank = self.text[i:end] == "_"
                return ("ArgumentBlank", "Underscore", end) if is_blank else ("ArgumentName", "Ident", end)
        return self.math(i, c)
