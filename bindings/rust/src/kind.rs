//! The kinds of nodes. Written by bench/kinds.py from crates/kinds.txt: change that and run it.

/// The kind of a node of the syntax tree: a token, an expression, a piece of markup and so on.
#[derive(Clone, Copy, Debug, PartialEq, Eq, PartialOrd, Ord, Hash)]
#[repr(u8)]
#[non_exhaustive]
pub enum SyntaxKind {
    /// The end of the tokens: no more of the text is left.
    End,
    /// Text that isn't valid Typst, such as a `)` that nothing opened.
    Error,
    /// A script's first line, for the system that runs it: `#!/usr/bin/env typst`.
    Shebang,
    /// A comment to the end of its line: `// to do`.
    LineComment,
    /// A comment between two marks: `/* to do */`.
    BlockComment,
    /// Markup, as in a file or between brackets: `A *bold* word`.
    Markup,
    /// Plain text: `Hello`.
    Text,
    /// White space. In markup it has at most one line break.
    Space,
    /// A line break within a paragraph: `one \ two`.
    Linebreak,
    /// White space with an empty line, which ends a paragraph.
    Parbreak,
    /// A character that stands for itself, or that is given by its number: `\*`, `\u{2603}`.
    Escape,
    /// Signs in markup that stand for one character: `--`, `~`.
    Shorthand,
    /// A quote, which is set by the rules of the language: `"` or `'`.
    SmartQuote,
    /// Content between stars: `*bold*`.
    Strong,
    /// Content between underscores: `_stressed_`.
    Emph,
    /// Text that is kept as it is written: `` `let x` ``.
    Raw,
    /// The language at the start of a raw text: the `rust` of ```` ```rust fn main``` ````.
    RawLang,
    /// The backticks at either end of a raw text: the two `` ` `` of `` `let x` ``.
    RawDelim,
    /// White space that isn't a part of a raw text: line breaks at its ends, and the indentation of its lines.
    RawTrimmed,
    /// An address that is written out: `https://example.org`.
    Link,
    /// A name by which references find what comes before it: `<intro>`.
    Label,
    /// A reference to a label: `@intro`, `@intro[Chapter]`.
    Ref,
    /// The sign and the label of a reference: the `@intro` of `@intro[Chapter]`.
    RefMarker,
    /// A heading: `= Introduction`.
    Heading,
    /// The signs before a heading, one for each level: the `==` of `== Results`.
    HeadingMarker,
    /// An item of a list with bullets: `- milk`.
    ListItem,
    /// The sign before an item of a list with bullets: the `-` of `- milk`.
    ListMarker,
    /// An item of a numbered list: `+ boil`, `3. serve`.
    EnumItem,
    /// The sign or the number before an item of a numbered list: `+`, `3.`.
    EnumMarker,
    /// A term with its meaning: `/ Leaf: a node without children`.
    TermItem,
    /// The sign before a term: the `/` of `/ Leaf: a node without children`.
    TermMarker,
    /// An equation: `$a^2$` in a line, `$ a^2 $` as a block.
    Equation,
    /// The content of an equation or of a part of one: the `a^2 + b` of `$a^2 + b$`.
    Math,
    /// A character or a number that stands for itself in an equation: `a`, `2.5`, `=`.
    MathText,
    /// A name of two letters or more in an equation: `alpha`.
    MathIdent,
    /// A field of a name in an equation: `arrow.l`.
    MathFieldAccess,
    /// Signs in an equation that stand for one character: `->`, `<=`.
    MathShorthand,
    /// A point at which the lines of an equation are aligned: `&`.
    MathAlignPoint,
    /// A call in an equation: `vec(1, 2)`.
    MathCall,
    /// The arguments of a call in an equation, with their parentheses: the `(1, 2)` of `vec(1, 2)`.
    MathArgs,
    /// A part of an equation between two delimiters: `[a + b]`.
    MathDelimited,
    /// A base with what is above and below it: `x_1^2`.
    MathAttach,
    /// Primes after a base: the `''` of `f''`.
    MathPrimes,
    /// A fraction: `a/b`.
    MathFrac,
    /// A root by its sign: `√x`, `∛x`.
    MathRoot,
    /// The sign that leads from markup into code: `#`.
    Hash,
    /// An opening brace: `{`.
    LeftBrace,
    /// A closing brace: `}`.
    RightBrace,
    /// An opening bracket: `[`.
    LeftBracket,
    /// A closing bracket: `]`.
    RightBracket,
    /// An opening parenthesis: `(`.
    LeftParen,
    /// A closing parenthesis: `)`.
    RightParen,
    /// A comma: `,`.
    Comma,
    /// A semicolon: `;`.
    Semicolon,
    /// A colon: `:`.
    Colon,
    /// A star, around strong content or between factors: `*`.
    Star,
    /// An underscore, around emphasized content or for a part that a pattern skips: `_`.
    Underscore,
    /// The sign at either end of an equation: `$`.
    Dollar,
    /// A plus sign: `+`.
    Plus,
    /// A minus sign: `-`.
    Minus,
    /// A slash, between the two parts of a quotient: `/`.
    Slash,
    /// The sign before the part above a base: `^`.
    Hat,
    /// The dot before a field: `.`.
    Dot,
    /// The sign of a binding or an assignment: `=`.
    Eq,
    /// The operator that asks whether two values are equal: `==`.
    EqEq,
    /// The operator that asks whether two values differ: `!=`.
    ExclEq,
    /// The operator for less: `<`.
    Lt,
    /// The operator for less or equal: `<=`.
    LtEq,
    /// The operator for greater: `>`.
    Gt,
    /// The operator for greater or equal: `>=`.
    GtEq,
    /// The assignment that adds: `+=`.
    PlusEq,
    /// The assignment that subtracts: `-=`.
    HyphEq,
    /// The assignment that multiplies: `*=`.
    StarEq,
    /// The assignment that divides: `/=`.
    SlashEq,
    /// The dots of a spread: `..`.
    Dots,
    /// The arrow between a closure's parameters and its body: `=>`.
    Arrow,
    /// The sign of a root: `√`, `∛`, `∜`.
    Root,
    /// The exclamation mark in an equation: `!`.
    Bang,
    /// The operator `not`.
    Not,
    /// The operator `and`.
    And,
    /// The operator `or`.
    Or,
    /// The value `none`.
    None,
    /// The value `auto`.
    Auto,
    /// The keyword `let`.
    Let,
    /// The keyword `set`.
    Set,
    /// The keyword `show`.
    Show,
    /// The keyword `context`.
    Context,
    /// The keyword `if`.
    If,
    /// The keyword `else`.
    Else,
    /// The keyword `for`.
    For,
    /// The keyword `in`.
    In,
    /// The keyword `while`.
    While,
    /// The keyword `break`.
    Break,
    /// The keyword `continue`.
    Continue,
    /// The keyword `return`.
    Return,
    /// The keyword `import`.
    Import,
    /// The keyword `include`.
    Include,
    /// The keyword `as`.
    As,
    /// The expressions in a code block: the `f(); g()` of `{ f(); g() }`.
    Code,
    /// A name in code: `width`.
    Ident,
    /// A truth value: `true`, `false`.
    Bool,
    /// A whole number: `42`, `0x2a`.
    Int,
    /// A number with a point or an exponent: `0.5`, `1e3`.
    Float,
    /// A number with a unit: `2cm`, `30%`.
    Numeric,
    /// A text between quotes: `"two\nlines"`.
    Str,
    /// Code between braces: `{ let a = 1; a }`.
    CodeBlock,
    /// Markup between brackets: `[A *bold* word]`.
    ContentBlock,
    /// An expression in parentheses: `(a + b)`.
    Parenthesized,
    /// An array: `(1, 2, 3)`.
    Array,
    /// A dictionary: `(width: 2cm, "key": 1)`.
    Dict,
    /// A name with a value: the `width: 2cm` of `(width: 2cm)`.
    Named,
    /// A key that isn't a name, with a value: the `"key": 1` of `("key": 1)`.
    Keyed,
    /// An operator before its operand: `-a`, `not a`.
    Unary,
    /// An operator between two operands: `a + b`, `a in b`.
    Binary,
    /// A field of a value: `page.width`.
    FieldAccess,
    /// A call: `calc.max(a, b)`, `list[A][B]`.
    FuncCall,
    /// The arguments of a call, with content after them: the `(a, size: 2cm)[B]` of `box(a, size: 2cm)[B]`.
    Args,
    /// A value that is spread, or a sink that takes the rest: `..items`.
    Spread,
    /// A function without a name, or one that `let` binds: `(a, b) => a + b`.
    Closure,
    /// The parameters of a closure: the `(a, b: 1)` of `(a, b: 1) => a`.
    Params,
    /// A binding: `let a = 1`, `let f(x) = x`.
    LetBinding,
    /// A rule that sets parameters for what comes after it: `set text(size: 9pt)`.
    SetRule,
    /// A rule that says how elements are shown: `show heading: it => it.body`.
    ShowRule,
    /// An expression that depends on its place in the document: `context text.size`.
    Contextual,
    /// A choice: `if a { b } else { c }`.
    Conditional,
    /// A loop while a condition holds: `while a < 3 { a += 1 }`.
    WhileLoop,
    /// A loop over items: `for a in list { a }`.
    ForLoop,
    /// An import of a module: `import "shapes.typ": circle as ring`.
    ModuleImport,
    /// The items that an import names: the `circle, square` of `import "shapes.typ": circle, square`.
    ImportItems,
    /// The path of an item that an import names: the `round.circle` of `import "shapes.typ": round.circle`.
    ImportItemPath,
    /// An item that an import brings in under another name: the `circle as ring` of `import "shapes.typ": circle as ring`.
    RenamedImportItem,
    /// The content of another file: `include "chapter.typ"`.
    ModuleInclude,
    /// The end of a loop: `break`.
    LoopBreak,
    /// The next round of a loop: `continue`.
    LoopContinue,
    /// The end of a function, with a value or without: `return a`.
    FuncReturn,
    /// A pattern with several parts: the `(a, .., b)` of `let (a, .., b) = list`.
    Destructuring,
    /// An assignment to several places at once: `(a, b) = (b, a)`.
    DestructAssignment,
}

/// The kinds, in the order of their numbers.
const KINDS: [SyntaxKind; 137] = [
    SyntaxKind::End,
    SyntaxKind::Error,
    SyntaxKind::Shebang,
    SyntaxKind::LineComment,
    SyntaxKind::BlockComment,
    SyntaxKind::Markup,
    SyntaxKind::Text,
    SyntaxKind::Space,
    SyntaxKind::Linebreak,
    SyntaxKind::Parbreak,
    SyntaxKind::Escape,
    SyntaxKind::Shorthand,
    SyntaxKind::SmartQuote,
    SyntaxKind::Strong,
    SyntaxKind::Emph,
    SyntaxKind::Raw,
    SyntaxKind::RawLang,
    SyntaxKind::RawDelim,
    SyntaxKind::RawTrimmed,
    SyntaxKind::Link,
    SyntaxKind::Label,
    SyntaxKind::Ref,
    SyntaxKind::RefMarker,
    SyntaxKind::Heading,
    SyntaxKind::HeadingMarker,
    SyntaxKind::ListItem,
    SyntaxKind::ListMarker,
    SyntaxKind::EnumItem,
    SyntaxKind::EnumMarker,
    SyntaxKind::TermItem,
    SyntaxKind::TermMarker,
    SyntaxKind::Equation,
    SyntaxKind::Math,
    SyntaxKind::MathText,
    SyntaxKind::MathIdent,
    SyntaxKind::MathFieldAccess,
    SyntaxKind::MathShorthand,
    SyntaxKind::MathAlignPoint,
    SyntaxKind::MathCall,
    SyntaxKind::MathArgs,
    SyntaxKind::MathDelimited,
    SyntaxKind::MathAttach,
    SyntaxKind::MathPrimes,
    SyntaxKind::MathFrac,
    SyntaxKind::MathRoot,
    SyntaxKind::Hash,
    SyntaxKind::LeftBrace,
    SyntaxKind::RightBrace,
    SyntaxKind::LeftBracket,
    SyntaxKind::RightBracket,
    SyntaxKind::LeftParen,
    SyntaxKind::RightParen,
    SyntaxKind::Comma,
    SyntaxKind::Semicolon,
    SyntaxKind::Colon,
    SyntaxKind::Star,
    SyntaxKind::Underscore,
    SyntaxKind::Dollar,
    SyntaxKind::Plus,
    SyntaxKind::Minus,
    SyntaxKind::Slash,
    SyntaxKind::Hat,
    SyntaxKind::Dot,
    SyntaxKind::Eq,
    SyntaxKind::EqEq,
    SyntaxKind::ExclEq,
    SyntaxKind::Lt,
    SyntaxKind::LtEq,
    SyntaxKind::Gt,
    SyntaxKind::GtEq,
    SyntaxKind::PlusEq,
    SyntaxKind::HyphEq,
    SyntaxKind::StarEq,
    SyntaxKind::SlashEq,
    SyntaxKind::Dots,
    SyntaxKind::Arrow,
    SyntaxKind::Root,
    SyntaxKind::Bang,
    SyntaxKind::Not,
    SyntaxKind::And,
    SyntaxKind::Or,
    SyntaxKind::None,
    SyntaxKind::Auto,
    SyntaxKind::Let,
    SyntaxKind::Set,
    SyntaxKind::Show,
    SyntaxKind::Context,
    SyntaxKind::If,
    SyntaxKind::Else,
    SyntaxKind::For,
    SyntaxKind::In,
    SyntaxKind::While,
    SyntaxKind::Break,
    SyntaxKind::Continue,
    SyntaxKind::Return,
    SyntaxKind::Import,
    SyntaxKind::Include,
    SyntaxKind::As,
    SyntaxKind::Code,
    SyntaxKind::Ident,
    SyntaxKind::Bool,
    SyntaxKind::Int,
    SyntaxKind::Float,
    SyntaxKind::Numeric,
    SyntaxKind::Str,
    SyntaxKind::CodeBlock,
    SyntaxKind::ContentBlock,
    SyntaxKind::Parenthesized,
    SyntaxKind::Array,
    SyntaxKind::Dict,
    SyntaxKind::Named,
    SyntaxKind::Keyed,
    SyntaxKind::Unary,
    SyntaxKind::Binary,
    SyntaxKind::FieldAccess,
    SyntaxKind::FuncCall,
    SyntaxKind::Args,
    SyntaxKind::Spread,
    SyntaxKind::Closure,
    SyntaxKind::Params,
    SyntaxKind::LetBinding,
    SyntaxKind::SetRule,
    SyntaxKind::ShowRule,
    SyntaxKind::Contextual,
    SyntaxKind::Conditional,
    SyntaxKind::WhileLoop,
    SyntaxKind::ForLoop,
    SyntaxKind::ModuleImport,
    SyntaxKind::ImportItems,
    SyntaxKind::ImportItemPath,
    SyntaxKind::RenamedImportItem,
    SyntaxKind::ModuleInclude,
    SyntaxKind::LoopBreak,
    SyntaxKind::LoopContinue,
    SyntaxKind::FuncReturn,
    SyntaxKind::Destructuring,
    SyntaxKind::DestructAssignment,
];

impl SyntaxKind {
    /// All kinds, in the order of their numbers.
    pub fn all() -> &'static [SyntaxKind] {
        &KINDS
    }

    /// The kind's number.
    pub fn to_u8(self) -> u8 {
        self as u8
    }

    /// The kind with a number, if there is one.
    pub fn from_u8(number: u8) -> Option<SyntaxKind> {
        KINDS.get(usize::from(number)).copied()
    }

    /// The kind's name, as messages to a user write it.
    pub fn name(self) -> &'static str {
        match self {
            SyntaxKind::End => "end of tokens",
            SyntaxKind::Error => "syntax error",
            SyntaxKind::Shebang => "shebang",
            SyntaxKind::LineComment => "line comment",
            SyntaxKind::BlockComment => "block comment",
            SyntaxKind::Markup => "markup",
            SyntaxKind::Text => "text",
            SyntaxKind::Space => "space",
            SyntaxKind::Linebreak => "line break",
            SyntaxKind::Parbreak => "paragraph break",
            SyntaxKind::Escape => "escape sequence",
            SyntaxKind::Shorthand => "shorthand",
            SyntaxKind::SmartQuote => "smart quote",
            SyntaxKind::Strong => "strong content",
            SyntaxKind::Emph => "emphasized content",
            SyntaxKind::Raw => "raw block",
            SyntaxKind::RawLang => "raw language tag",
            SyntaxKind::RawDelim => "raw delimiter",
            SyntaxKind::RawTrimmed => "raw trimmed",
            SyntaxKind::Link => "link",
            SyntaxKind::Label => "label",
            SyntaxKind::Ref => "reference",
            SyntaxKind::RefMarker => "reference marker",
            SyntaxKind::Heading => "heading",
            SyntaxKind::HeadingMarker => "heading marker",
            SyntaxKind::ListItem => "list item",
            SyntaxKind::ListMarker => "list marker",
            SyntaxKind::EnumItem => "enum item",
            SyntaxKind::EnumMarker => "enum marker",
            SyntaxKind::TermItem => "term list item",
            SyntaxKind::TermMarker => "term marker",
            SyntaxKind::Equation => "equation",
            SyntaxKind::Math => "math",
            SyntaxKind::MathText => "math text",
            SyntaxKind::MathIdent => "math identifier",
            SyntaxKind::MathFieldAccess => "math field access",
            SyntaxKind::MathShorthand => "math shorthand",
            SyntaxKind::MathAlignPoint => "math alignment point",
            SyntaxKind::MathCall => "math function call",
            SyntaxKind::MathArgs => "math call arguments",
            SyntaxKind::MathDelimited => "delimited math",
            SyntaxKind::MathAttach => "math attachments",
            SyntaxKind::MathPrimes => "math primes",
            SyntaxKind::MathFrac => "math fraction",
            SyntaxKind::MathRoot => "math root",
            SyntaxKind::Hash => "hash",
            SyntaxKind::LeftBrace => "opening brace",
            SyntaxKind::RightBrace => "closing brace",
            SyntaxKind::LeftBracket => "opening bracket",
            SyntaxKind::RightBracket => "closing bracket",
            SyntaxKind::LeftParen => "opening paren",
            SyntaxKind::RightParen => "closing paren",
            SyntaxKind::Comma => "comma",
            SyntaxKind::Semicolon => "semicolon",
            SyntaxKind::Colon => "colon",
            SyntaxKind::Star => "star",
            SyntaxKind::Underscore => "underscore",
            SyntaxKind::Dollar => "dollar sign",
            SyntaxKind::Plus => "plus",
            SyntaxKind::Minus => "minus",
            SyntaxKind::Slash => "slash",
            SyntaxKind::Hat => "hat",
            SyntaxKind::Dot => "dot",
            SyntaxKind::Eq => "equals sign",
            SyntaxKind::EqEq => "equality operator",
            SyntaxKind::ExclEq => "inequality operator",
            SyntaxKind::Lt => "less-than operator",
            SyntaxKind::LtEq => "less-than or equal operator",
            SyntaxKind::Gt => "greater-than operator",
            SyntaxKind::GtEq => "greater-than or equal operator",
            SyntaxKind::PlusEq => "add-assign operator",
            SyntaxKind::HyphEq => "subtract-assign operator",
            SyntaxKind::StarEq => "multiply-assign operator",
            SyntaxKind::SlashEq => "divide-assign operator",
            SyntaxKind::Dots => "dots",
            SyntaxKind::Arrow => "arrow",
            SyntaxKind::Root => "root",
            SyntaxKind::Bang => "exclamation mark",
            SyntaxKind::Not => "operator `not`",
            SyntaxKind::And => "operator `and`",
            SyntaxKind::Or => "operator `or`",
            SyntaxKind::None => "`none`",
            SyntaxKind::Auto => "`auto`",
            SyntaxKind::Let => "keyword `let`",
            SyntaxKind::Set => "keyword `set`",
            SyntaxKind::Show => "keyword `show`",
            SyntaxKind::Context => "keyword `context`",
            SyntaxKind::If => "keyword `if`",
            SyntaxKind::Else => "keyword `else`",
            SyntaxKind::For => "keyword `for`",
            SyntaxKind::In => "keyword `in`",
            SyntaxKind::While => "keyword `while`",
            SyntaxKind::Break => "keyword `break`",
            SyntaxKind::Continue => "keyword `continue`",
            SyntaxKind::Return => "keyword `return`",
            SyntaxKind::Import => "keyword `import`",
            SyntaxKind::Include => "keyword `include`",
            SyntaxKind::As => "keyword `as`",
            SyntaxKind::Code => "code",
            SyntaxKind::Ident => "identifier",
            SyntaxKind::Bool => "boolean",
            SyntaxKind::Int => "integer",
            SyntaxKind::Float => "float",
            SyntaxKind::Numeric => "numeric value",
            SyntaxKind::Str => "string",
            SyntaxKind::CodeBlock => "code block",
            SyntaxKind::ContentBlock => "content block",
            SyntaxKind::Parenthesized => "group",
            SyntaxKind::Array => "array",
            SyntaxKind::Dict => "dictionary",
            SyntaxKind::Named => "named pair",
            SyntaxKind::Keyed => "keyed pair",
            SyntaxKind::Unary => "unary expression",
            SyntaxKind::Binary => "binary expression",
            SyntaxKind::FieldAccess => "field access",
            SyntaxKind::FuncCall => "function call",
            SyntaxKind::Args => "call arguments",
            SyntaxKind::Spread => "spread",
            SyntaxKind::Closure => "closure",
            SyntaxKind::Params => "closure parameters",
            SyntaxKind::LetBinding => "`let` expression",
            SyntaxKind::SetRule => "`set` expression",
            SyntaxKind::ShowRule => "`show` expression",
            SyntaxKind::Contextual => "`context` expression",
            SyntaxKind::Conditional => "`if` expression",
            SyntaxKind::WhileLoop => "while-loop expression",
            SyntaxKind::ForLoop => "for-loop expression",
            SyntaxKind::ModuleImport => "`import` expression",
            SyntaxKind::ImportItems => "import items",
            SyntaxKind::ImportItemPath => "imported item path",
            SyntaxKind::RenamedImportItem => "renamed import item",
            SyntaxKind::ModuleInclude => "`include` expression",
            SyntaxKind::LoopBreak => "`break` expression",
            SyntaxKind::LoopContinue => "`continue` expression",
            SyntaxKind::FuncReturn => "`return` expression",
            SyntaxKind::Destructuring => "destructuring pattern",
            SyntaxKind::DestructAssignment => "destructuring assignment expression",
        }
    }

    /// Whether this is a bracket, a brace or a parenthesis.
    pub fn is_grouping(self) -> bool {
        matches!(
            self,
            SyntaxKind::LeftBrace
                | SyntaxKind::RightBrace
                | SyntaxKind::LeftBracket
                | SyntaxKind::RightBracket
                | SyntaxKind::LeftParen
                | SyntaxKind::RightParen
        )
    }

    /// Whether this ends an expression.
    pub fn is_terminator(self) -> bool {
        matches!(
            self,
            SyntaxKind::End
                | SyntaxKind::RightBrace
                | SyntaxKind::RightBracket
                | SyntaxKind::RightParen
                | SyntaxKind::Semicolon
        )
    }

    /// Whether this is a block of code or of content.
    pub fn is_block(self) -> bool {
        matches!(self, SyntaxKind::CodeBlock | SyntaxKind::ContentBlock)
    }

    /// Whether this is a statement.
    pub fn is_stmt(self) -> bool {
        matches!(
            self,
            SyntaxKind::LetBinding
                | SyntaxKind::SetRule
                | SyntaxKind::ShowRule
                | SyntaxKind::ModuleImport
                | SyntaxKind::ModuleInclude
        )
    }

    /// Whether this is a keyword.
    pub fn is_keyword(self) -> bool {
        matches!(
            self,
            SyntaxKind::Not
                | SyntaxKind::And
                | SyntaxKind::Or
                | SyntaxKind::None
                | SyntaxKind::Auto
                | SyntaxKind::Let
                | SyntaxKind::Set
                | SyntaxKind::Show
                | SyntaxKind::Context
                | SyntaxKind::If
                | SyntaxKind::Else
                | SyntaxKind::For
                | SyntaxKind::In
                | SyntaxKind::While
                | SyntaxKind::Break
                | SyntaxKind::Continue
                | SyntaxKind::Return
                | SyntaxKind::Import
                | SyntaxKind::Include
                | SyntaxKind::As
        )
    }

    /// Whether a parser skips this: a space, a comment or the like.
    pub fn is_trivia(self) -> bool {
        matches!(
            self,
            SyntaxKind::Shebang
                | SyntaxKind::LineComment
                | SyntaxKind::BlockComment
                | SyntaxKind::Space
                | SyntaxKind::Parbreak
        )
    }
}
