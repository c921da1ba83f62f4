/* The kinds of nodes, by number. Written by bench/kinds.py from crates/kinds.txt: change that and run it. */
#ifndef TYPST_KINDS_H
#define TYPST_KINDS_H

enum {
    /** The end of the tokens: no more of the text is left. */
    TYPST_KIND_END = 0,
    /** Text that isn't valid Typst, such as a `)` that nothing opened. */
    TYPST_KIND_ERROR = 1,
    /** A script's first line, for the system that runs it: `#!/usr/bin/env typst`. */
    TYPST_KIND_SHEBANG = 2,
    /** A comment to the end of its line: `// to do`. */
    TYPST_KIND_LINE_COMMENT = 3,
    /** A comment between two marks: `/ * to do * /`. */
    TYPST_KIND_BLOCK_COMMENT = 4,
    /** Markup, as in a file or between brackets: `A *bold* word`. */
    TYPST_KIND_MARKUP = 5,
    /** Plain text: `Hello`. */
    TYPST_KIND_TEXT = 6,
    /** White space. In markup it has at most one line break. */
    TYPST_KIND_SPACE = 7,
    /** A line break within a paragraph: <code>one \\ two</code>. */
    TYPST_KIND_LINEBREAK = 8,
    /** White space with an empty line, which ends a paragraph. */
    TYPST_KIND_PARBREAK = 9,
    /** A character that stands for itself, or that is given by its number: <code>\\*</code>, <code>\\u{2603}</code>. */
    TYPST_KIND_ESCAPE = 10,
    /** Signs in markup that stand for one character: `--`, `~`. */
    TYPST_KIND_SHORTHAND = 11,
    /** A quote, which is set by the rules of the language: `"` or `'`. */
    TYPST_KIND_SMART_QUOTE = 12,
    /** Content between stars: `*bold*`. */
    TYPST_KIND_STRONG = 13,
    /** Content between underscores: `_stressed_`. */
    TYPST_KIND_EMPH = 14,
    /** Text that is kept as it is written: `` `let x` ``. */
    TYPST_KIND_RAW = 15,
    /** The language at the start of a raw text: the `rust` of ```` ```rust fn main``` ````. */
    TYPST_KIND_RAW_LANG = 16,
    /** The backticks at either end of a raw text: the two `` ` `` of `` `let x` ``. */
    TYPST_KIND_RAW_DELIM = 17,
    /** White space that isn't a part of a raw text: line breaks at its ends, and the indentation of its lines. */
    TYPST_KIND_RAW_TRIMMED = 18,
    /** An address that is written out: `https://example.org`. */
    TYPST_KIND_LINK = 19,
    /** A name by which references find what comes before it: `<intro>`. */
    TYPST_KIND_LABEL = 20,
    /** A reference to a label: <code>\@intro</code>, <code>\@intro[Chapter]</code>. */
    TYPST_KIND_REF = 21,
    /** The sign and the label of a reference: the <code>\@intro</code> of <code>\@intro[Chapter]</code>. */
    TYPST_KIND_REF_MARKER = 22,
    /** A heading: `= Introduction`. */
    TYPST_KIND_HEADING = 23,
    /** The signs before a heading, one for each level: the `==` of `== Results`. */
    TYPST_KIND_HEADING_MARKER = 24,
    /** An item of a list with bullets: `- milk`. */
    TYPST_KIND_LIST_ITEM = 25,
    /** The sign before an item of a list with bullets: the `-` of `- milk`. */
    TYPST_KIND_LIST_MARKER = 26,
    /** An item of a numbered list: `+ boil`, `3. serve`. */
    TYPST_KIND_ENUM_ITEM = 27,
    /** The sign or the number before an item of a numbered list: `+`, `3.`. */
    TYPST_KIND_ENUM_MARKER = 28,
    /** A term with its meaning: `/ Leaf: a node without children`. */
    TYPST_KIND_TERM_ITEM = 29,
    /** The sign before a term: the `/` of `/ Leaf: a node without children`. */
    TYPST_KIND_TERM_MARKER = 30,
    /** An equation: `$a^2$` in a line, `$ a^2 $` as a block. */
    TYPST_KIND_EQUATION = 31,
    /** The content of an equation or of a part of one: the `a^2 + b` of `$a^2 + b$`. */
    TYPST_KIND_MATH = 32,
    /** A character or a number that stands for itself in an equation: `a`, `2.5`, `=`. */
    TYPST_KIND_MATH_TEXT = 33,
    /** A name of two letters or more in an equation: `alpha`. */
    TYPST_KIND_MATH_IDENT = 34,
    /** A field of a name in an equation: `arrow.l`. */
    TYPST_KIND_MATH_FIELD_ACCESS = 35,
    /** Signs in an equation that stand for one character: `->`, `<=`. */
    TYPST_KIND_MATH_SHORTHAND = 36,
    /** A point at which the lines of an equation are aligned: `&`. */
    TYPST_KIND_MATH_ALIGN_POINT = 37,
    /** A call in an equation: `vec(1, 2)`. */
    TYPST_KIND_MATH_CALL = 38,
    /** The arguments of a call in an equation, with their parentheses: the `(1, 2)` of `vec(1, 2)`. */
    TYPST_KIND_MATH_ARGS = 39,
    /** A part of an equation between two delimiters: `[a + b]`. */
    TYPST_KIND_MATH_DELIMITED = 40,
    /** A base with what is above and below it: `x_1^2`. */
    TYPST_KIND_MATH_ATTACH = 41,
    /** Primes after a base: the `''` of `f''`. */
    TYPST_KIND_MATH_PRIMES = 42,
    /** A fraction: `a/b`. */
    TYPST_KIND_MATH_FRAC = 43,
    /** A root by its sign: `√x`, `∛x`. */
    TYPST_KIND_MATH_ROOT = 44,
    /** The sign that leads from markup into code: `#`. */
    TYPST_KIND_HASH = 45,
    /** An opening brace: `{`. */
    TYPST_KIND_LEFT_BRACE = 46,
    /** A closing brace: `}`. */
    TYPST_KIND_RIGHT_BRACE = 47,
    /** An opening bracket: `[`. */
    TYPST_KIND_LEFT_BRACKET = 48,
    /** A closing bracket: `]`. */
    TYPST_KIND_RIGHT_BRACKET = 49,
    /** An opening parenthesis: `(`. */
    TYPST_KIND_LEFT_PAREN = 50,
    /** A closing parenthesis: `)`. */
    TYPST_KIND_RIGHT_PAREN = 51,
    /** A comma: `,`. */
    TYPST_KIND_COMMA = 52,
    /** A semicolon: `;`. */
    TYPST_KIND_SEMICOLON = 53,
    /** A colon: `:`. */
    TYPST_KIND_COLON = 54,
    /** A star, around strong content or between factors: `*`. */
    TYPST_KIND_STAR = 55,
    /** An underscore, around emphasized content or for a part that a pattern skips: `_`. */
    TYPST_KIND_UNDERSCORE = 56,
    /** The sign at either end of an equation: `$`. */
    TYPST_KIND_DOLLAR = 57,
    /** A plus sign: `+`. */
    TYPST_KIND_PLUS = 58,
    /** A minus sign: `-`. */
    TYPST_KIND_MINUS = 59,
    /** A slash, between the two parts of a quotient: `/`. */
    TYPST_KIND_SLASH = 60,
    /** The sign before the part above a base: `^`. */
    TYPST_KIND_HAT = 61,
    /** The dot before a field: `.`. */
    TYPST_KIND_DOT = 62,
    /** The sign of a binding or an assignment: `=`. */
    TYPST_KIND_EQ = 63,
    /** The operator that asks whether two values are equal: `==`. */
    TYPST_KIND_EQ_EQ = 64,
    /** The operator that asks whether two values differ: `!=`. */
    TYPST_KIND_EXCL_EQ = 65,
    /** The operator for less: `<`. */
    TYPST_KIND_LT = 66,
    /** The operator for less or equal: `<=`. */
    TYPST_KIND_LT_EQ = 67,
    /** The operator for greater: `>`. */
    TYPST_KIND_GT = 68,
    /** The operator for greater or equal: `>=`. */
    TYPST_KIND_GT_EQ = 69,
    /** The assignment that adds: `+=`. */
    TYPST_KIND_PLUS_EQ = 70,
    /** The assignment that subtracts: `-=`. */
    TYPST_KIND_HYPH_EQ = 71,
    /** The assignment that multiplies: `*=`. */
    TYPST_KIND_STAR_EQ = 72,
    /** The assignment that divides: `/=`. */
    TYPST_KIND_SLASH_EQ = 73,
    /** The dots of a spread: `..`. */
    TYPST_KIND_DOTS = 74,
    /** The arrow between a closure's parameters and its body: `=>`. */
    TYPST_KIND_ARROW = 75,
    /** The sign of a root: `√`, `∛`, `∜`. */
    TYPST_KIND_ROOT = 76,
    /** The exclamation mark in an equation: `!`. */
    TYPST_KIND_BANG = 77,
    /** The operator `not`. */
    TYPST_KIND_NOT = 78,
    /** The operator `and`. */
    TYPST_KIND_AND = 79,
    /** The operator `or`. */
    TYPST_KIND_OR = 80,
    /** The value `none`. */
    TYPST_KIND_NONE = 81,
    /** The value `auto`. */
    TYPST_KIND_AUTO = 82,
    /** The keyword `let`. */
    TYPST_KIND_LET = 83,
    /** The keyword `set`. */
    TYPST_KIND_SET = 84,
    /** The keyword `show`. */
    TYPST_KIND_SHOW = 85,
    /** The keyword `context`. */
    TYPST_KIND_CONTEXT = 86,
    /** The keyword `if`. */
    TYPST_KIND_IF = 87,
    /** The keyword `else`. */
    TYPST_KIND_ELSE = 88,
    /** The keyword `for`. */
    TYPST_KIND_FOR = 89,
    /** The keyword `in`. */
    TYPST_KIND_IN = 90,
    /** The keyword `while`. */
    TYPST_KIND_WHILE = 91,
    /** The keyword `break`. */
    TYPST_KIND_BREAK = 92,
    /** The keyword `continue`. */
    TYPST_KIND_CONTINUE = 93,
    /** The keyword `return`. */
    TYPST_KIND_RETURN = 94,
    /** The keyword `import`. */
    TYPST_KIND_IMPORT = 95,
    /** The keyword `include`. */
    TYPST_KIND_INCLUDE = 96,
    /** The keyword `as`. */
    TYPST_KIND_AS = 97,
    /** The expressions in a code block: the `f(); g()` of `{ f(); g() }`. */
    TYPST_KIND_CODE = 98,
    /** A name in code: `width`. */
    TYPST_KIND_IDENT = 99,
    /** A truth value: `true`, `false`. */
    TYPST_KIND_BOOL = 100,
    /** A whole number: `42`, `0x2a`. */
    TYPST_KIND_INT = 101,
    /** A number with a point or an exponent: `0.5`, `1e3`. */
    TYPST_KIND_FLOAT = 102,
    /** A number with a unit: `2cm`, `30%`. */
    TYPST_KIND_NUMERIC = 103,
    /** A text between quotes: <code>"two\\nlines"</code>. */
    TYPST_KIND_STR = 104,
    /** Code between braces: `{ let a = 1; a }`. */
    TYPST_KIND_CODE_BLOCK = 105,
    /** Markup between brackets: `[A *bold* word]`. */
    TYPST_KIND_CONTENT_BLOCK = 106,
    /** An expression in parentheses: `(a + b)`. */
    TYPST_KIND_PARENTHESIZED = 107,
    /** An array: `(1, 2, 3)`. */
    TYPST_KIND_ARRAY = 108,
    /** A dictionary: `(width: 2cm, "key": 1)`. */
    TYPST_KIND_DICT = 109,
    /** A name with a value: the `width: 2cm` of `(width: 2cm)`. */
    TYPST_KIND_NAMED = 110,
    /** A key that isn't a name, with a value: the `"key": 1` of `("key": 1)`. */
    TYPST_KIND_KEYED = 111,
    /** An operator before its operand: `-a`, `not a`. */
    TYPST_KIND_UNARY = 112,
    /** An operator between two operands: `a + b`, `a in b`. */
    TYPST_KIND_BINARY = 113,
    /** A field of a value: `page.width`. */
    TYPST_KIND_FIELD_ACCESS = 114,
    /** A call: `calc.max(a, b)`, `list[A][B]`. */
    TYPST_KIND_FUNC_CALL = 115,
    /** The arguments of a call, with content after them: the `(a, size: 2cm)[B]` of `box(a, size: 2cm)[B]`. */
    TYPST_KIND_ARGS = 116,
    /** A value that is spread, or a sink that takes the rest: `..items`. */
    TYPST_KIND_SPREAD = 117,
    /** A function without a name, or one that `let` binds: `(a, b) => a + b`. */
    TYPST_KIND_CLOSURE = 118,
    /** The parameters of a closure: the `(a, b: 1)` of `(a, b: 1) => a`. */
    TYPST_KIND_PARAMS = 119,
    /** A binding: `let a = 1`, `let f(x) = x`. */
    TYPST_KIND_LET_BINDING = 120,
    /** A rule that sets parameters for what comes after it: `set text(size: 9pt)`. */
    TYPST_KIND_SET_RULE = 121,
    /** A rule that says how elements are shown: `show heading: it => it.body`. */
    TYPST_KIND_SHOW_RULE = 122,
    /** An expression that depends on its place in the document: `context text.size`. */
    TYPST_KIND_CONTEXTUAL = 123,
    /** A choice: `if a { b } else { c }`. */
    TYPST_KIND_CONDITIONAL = 124,
    /** A loop while a condition holds: `while a < 3 { a += 1 }`. */
    TYPST_KIND_WHILE_LOOP = 125,
    /** A loop over items: `for a in list { a }`. */
    TYPST_KIND_FOR_LOOP = 126,
    /** An import of a module: `import "shapes.typ": circle as ring`. */
    TYPST_KIND_MODULE_IMPORT = 127,
    /** The items that an import names: the `circle, square` of `import "shapes.typ": circle, square`. */
    TYPST_KIND_IMPORT_ITEMS = 128,
    /** The path of an item that an import names: the `round.circle` of `import "shapes.typ": round.circle`. */
    TYPST_KIND_IMPORT_ITEM_PATH = 129,
    /** An item that an import brings in under another name: the `circle as ring` of `import "shapes.typ": circle as ring`. */
    TYPST_KIND_RENAMED_IMPORT_ITEM = 130,
    /** The content of another file: `include "chapter.typ"`. */
    TYPST_KIND_MODULE_INCLUDE = 131,
    /** The end of a loop: `break`. */
    TYPST_KIND_LOOP_BREAK = 132,
    /** The next round of a loop: `continue`. */
    TYPST_KIND_LOOP_CONTINUE = 133,
    /** The end of a function, with a value or without: `return a`. */
    TYPST_KIND_FUNC_RETURN = 134,
    /** A pattern with several parts: the `(a, .., b)` of `let (a, .., b) = list`. */
    TYPST_KIND_DESTRUCTURING = 135,
    /** An assignment to several places at once: `(a, b) = (b, a)`. */
    TYPST_KIND_DESTRUCT_ASSIGNMENT = 136,
    /** The number of kinds. */
    TYPST_KINDS = 137
};

#endif
