//! Compares the accessors of typed views with what `crates/typst_run/stdout` wants of the trees of its `stdin`, which
//! are the answers of the Rust crate.
use std::collections::HashMap;
use std::fs;
use typst_tree::{Accessor, Answer, Builder, Error, FileId, Node, Span, SyntaxKind, Tree};

/// The accessors of a kind, by the names that looks give them.
fn accessors(kind: SyntaxKind) -> &'static [(&'static str, Accessor)] {
    use Accessor as by;
    match kind {
        SyntaxKind::LineComment => &[("text", by::LineCommentText)],
        SyntaxKind::BlockComment => &[("text", by::BlockCommentText)],
        SyntaxKind::Text => &[("get", by::TextGet)],
        SyntaxKind::RawLang => &[("get", by::RawLangGet)],
        SyntaxKind::Link => &[("get", by::LinkGet)],
        SyntaxKind::Ident => &[("get", by::IdentGet)],
        SyntaxKind::MathIdent => &[("get", by::MathIdentGet)],
        SyntaxKind::Escape => &[("get", by::EscapeGet)],
        SyntaxKind::Shorthand => &[("get", by::ShorthandGet)],
        SyntaxKind::MathShorthand => &[("get", by::MathShorthandGet)],
        SyntaxKind::SmartQuote => &[("double", by::SmartQuoteDouble)],
        SyntaxKind::Label => &[("get", by::LabelGet)],
        SyntaxKind::MathText => &[("get", by::MathTextGet)],
        SyntaxKind::MathPrimes => &[("count", by::MathPrimesCount)],
        SyntaxKind::Bool => &[("get", by::BoolGet)],
        SyntaxKind::Int => &[("get", by::IntGet)],
        SyntaxKind::Float => &[("get", by::FloatGet)],
        SyntaxKind::Numeric => &[("get", by::NumericNumber)],
        SyntaxKind::Str => &[("get", by::StrGet)],
        SyntaxKind::Math => &[("was_deparenthesized", by::MathWasDeparenthesized)],
        SyntaxKind::Heading => &[("depth", by::HeadingDepth)],
        SyntaxKind::EnumItem => &[("number", by::EnumItemNumber)],
        SyntaxKind::Ref => &[("target", by::RefTarget)],
        SyntaxKind::Equation => &[("block", by::EquationBlock)],
        SyntaxKind::MathRoot => &[("index", by::MathRootIndex)],
        SyntaxKind::Unary => &[("op", by::UnaryOp)],
        SyntaxKind::Binary => &[("op", by::BinaryOp)],
        SyntaxKind::Args => &[("trailing_comma", by::ArgsTrailingComma)],
        _ => &[],
    }
}

/// The accessors of a kind that answer other nodes, by the names that looks give them.
fn node_accessors(kind: SyntaxKind) -> &'static [(&'static str, Accessor)] {
    use Accessor as by;
    match kind {
        SyntaxKind::Strong => &[("body", by::StrongBody)],
        SyntaxKind::Emph => &[("body", by::EmphBody)],
        SyntaxKind::ContentBlock => &[("body", by::ContentBlockBody)],
        SyntaxKind::ListItem => &[("body", by::ListItemBody)],
        SyntaxKind::EnumItem => &[("body", by::EnumItemBody)],
        SyntaxKind::TermItem => &[("term", by::TermItemTerm), ("description", by::TermItemDescription)],
        SyntaxKind::Heading => &[("body", by::HeadingBody)],
        SyntaxKind::Ref => &[("supplement", by::RefSupplement)],
        SyntaxKind::Raw => &[("lang", by::RawLang), ("lines", by::RawLines)],
        SyntaxKind::Equation => &[("body", by::EquationBody)],
        SyntaxKind::MathFieldAccess => &[
            ("target", by::MathFieldAccessTarget),
            ("field", by::MathFieldAccessField),
        ],
        SyntaxKind::MathCall => &[("callee", by::MathCallCallee), ("args", by::MathCallArgs)],
        SyntaxKind::MathDelimited => &[
            ("open", by::MathDelimitedOpen),
            ("body", by::MathDelimitedBody),
            ("close", by::MathDelimitedClose),
        ],
        SyntaxKind::MathAttach => &[
            ("base", by::MathAttachBase),
            ("bottom", by::MathAttachBottom),
            ("top", by::MathAttachTop),
            ("primes", by::MathAttachPrimes),
        ],
        SyntaxKind::MathFrac => &[("num", by::MathFracNum), ("denom", by::MathFracDenom)],
        SyntaxKind::MathRoot => &[("radicand", by::MathRootRadicand)],
        SyntaxKind::CodeBlock => &[("body", by::CodeBlockBody)],
        SyntaxKind::Parenthesized => &[("expr", by::ParenthesizedExpr), ("pattern", by::ParenthesizedPattern)],
        SyntaxKind::Named => &[
            ("name", by::NamedName),
            ("expr", by::NamedExpr),
            ("pattern", by::NamedPattern),
        ],
        SyntaxKind::Keyed => &[("key", by::KeyedKey), ("expr", by::KeyedExpr)],
        SyntaxKind::Spread => &[
            ("expr", by::SpreadExpr),
            ("sink_ident", by::SpreadSinkIdent),
            ("sink_expr", by::SpreadSinkExpr),
        ],
        SyntaxKind::Unary => &[("expr", by::UnaryExpr)],
        SyntaxKind::Binary => &[("lhs", by::BinaryLhs), ("rhs", by::BinaryRhs)],
        SyntaxKind::FieldAccess => &[("target", by::FieldAccessTarget), ("field", by::FieldAccessField)],
        SyntaxKind::FuncCall => &[("callee", by::FuncCallCallee), ("args", by::FuncCallArgs)],
        SyntaxKind::Closure => &[
            ("name", by::ClosureName),
            ("params", by::ClosureParams),
            ("body", by::ClosureBody),
        ],
        SyntaxKind::LetBinding => &[("kind", by::LetBindingKind), ("init", by::LetBindingInit)],
        SyntaxKind::DestructAssignment => &[
            ("pattern", by::DestructAssignmentPattern),
            ("value", by::DestructAssignmentValue),
        ],
        SyntaxKind::SetRule => &[
            ("target", by::SetRuleTarget),
            ("args", by::SetRuleArgs),
            ("condition", by::SetRuleCondition),
        ],
        SyntaxKind::ShowRule => &[("selector", by::ShowRuleSelector), ("transform", by::ShowRuleTransform)],
        SyntaxKind::Contextual => &[("body", by::ContextualBody)],
        SyntaxKind::Conditional => &[
            ("condition", by::ConditionalCondition),
            ("if_body", by::ConditionalIfBody),
            ("else_body", by::ConditionalElseBody),
        ],
        SyntaxKind::WhileLoop => &[("condition", by::WhileLoopCondition), ("body", by::WhileLoopBody)],
        SyntaxKind::ForLoop => &[
            ("pattern", by::ForLoopPattern),
            ("iterable", by::ForLoopIterable),
            ("body", by::ForLoopBody),
        ],
        SyntaxKind::FuncReturn => &[("body", by::FuncReturnBody)],
        SyntaxKind::ImportItemPath => &[("name", by::ImportItemPathName), ("iter", by::ImportItemPathIter)],
        SyntaxKind::RenamedImportItem => &[
            ("path", by::RenamedImportItemPath),
            ("original_name", by::RenamedImportItemOriginalName),
            ("new_name", by::RenamedImportItemNewName),
        ],
        SyntaxKind::ModuleImport => &[
            ("source", by::ModuleImportSource),
            ("imports", by::ModuleImportImports),
            ("new_name", by::ModuleImportNewName),
        ],
        SyntaxKind::ModuleInclude => &[("source", by::ModuleIncludeSource)],
        SyntaxKind::Markup => &[("exprs", by::MarkupExprs)],
        SyntaxKind::Math => &[("exprs", by::MathExprs)],
        SyntaxKind::Code => &[("exprs", by::CodeExprs)],
        SyntaxKind::MathArgs => &[
            ("content_items", by::MathArgsContentItems),
            ("arg_items", by::MathArgsArgItems),
        ],
        SyntaxKind::Array => &[("items", by::ArrayItems)],
        SyntaxKind::Dict => &[("items", by::DictItems)],
        SyntaxKind::Destructuring => &[("items", by::DestructuringItems)],
        SyntaxKind::Args => &[("items", by::ArgsItems)],
        SyntaxKind::Params => &[("children", by::ParamsChildren)],
        SyntaxKind::ImportItems => &[("iter", by::ImportItemsIter)],
        _ => &[],
    }
}

/// The text of an answer.
fn text(answer: Option<Answer>) -> String {
    match answer {
        Some(Answer::Text(text)) => text,
        other => panic!("{other:?} is no text"),
    }
}

/// The variant of `Unit` with a text.
fn unit(text: &str) -> &'static str {
    let units = [
        ("pt", "Pt"),
        ("mm", "Mm"),
        ("cm", "Cm"),
        ("in", "In"),
        ("rad", "Rad"),
        ("deg", "Deg"),
        ("em", "Em"),
        ("fr", "Fr"),
        ("%", "Percent"),
    ];
    units
        .into_iter()
        .find_map(|(it, name)| (it == text).then_some(name))
        .expect("a unit")
}

/// The variant of `UnOp` with a text, and its precedence.
fn unary(text: &str) -> (&'static str, u64) {
    match text {
        "+" => ("Pos", 7),
        "-" => ("Neg", 7),
        "not" => ("Not", 4),
        _ => panic!("{text} is no unary operator"),
    }
}

/// The variant of `BinOp` with a text, its precedence, and whether it groups from the right.
fn binary(text: &str) -> (&'static str, u64, bool) {
    match text {
        "*" => ("Mul", 6, false),
        "/" => ("Div", 6, false),
        "+" => ("Add", 5, false),
        "-" => ("Sub", 5, false),
        "==" => ("Eq", 4, false),
        "!=" => ("Neq", 4, false),
        "<" => ("Lt", 4, false),
        "<=" => ("Leq", 4, false),
        ">" => ("Gt", 4, false),
        ">=" => ("Geq", 4, false),
        "in" => ("In", 4, false),
        "not in" => ("NotIn", 4, false),
        "and" => ("And", 3, false),
        "or" => ("Or", 2, false),
        "=" => ("Assign", 1, true),
        "+=" => ("AddAssign", 1, true),
        "-=" => ("SubAssign", 1, true),
        "*=" => ("MulAssign", 1, true),
        "/=" => ("DivAssign", 1, true),
        _ => panic!("{text} is no binary operator"),
    }
}

/// An answer as a look prints it. A look has one answer where this crate has two accessors, so it reads both.
fn printed(node: &Node<'_>, accessor: Accessor) -> Result<String, Error> {
    let answer = node.view(accessor)?;
    Ok(match accessor {
        Accessor::MathTextGet => {
            let is_number = node.view(Accessor::MathTextIsNumber)? == Some(Answer::Flag(true));
            format!("{}({:?})", if is_number { "Number" } else { "Grapheme" }, text(answer))
        }
        Accessor::NumericNumber => {
            format!(
                "({:?}, {})",
                text(answer),
                unit(&text(node.view(Accessor::NumericUnit)?))
            )
        }
        Accessor::UnaryOp => {
            let (name, precedence) = unary(&text(answer));
            assert_eq!(node.view(Accessor::UnaryPrecedence)?, Some(Answer::Natural(precedence)));
            name.to_string()
        }
        Accessor::BinaryOp => {
            let (name, precedence, is_right) = binary(&text(answer));
            assert_eq!(
                node.view(Accessor::BinaryPrecedence)?,
                Some(Answer::Natural(precedence))
            );
            assert_eq!(node.view(Accessor::BinaryIsRight)?, Some(Answer::Flag(is_right)));
            name.to_string()
        }
        _ => match answer {
            None => "none".to_string(),
            Some(Answer::Flag(flag)) => flag.to_string(),
            Some(Answer::Natural(number)) => number.to_string(),
            Some(Answer::Integer(value)) => value.to_string(),
            Some(Answer::Character(character)) => format!("{character:?}"),
            Some(Answer::Text(text)) => format!("{text:?}"),
            Some(other) => panic!("{other:?} is no answer of a look"),
        },
    })
}

/// The tree that the lines of a look build, if they are done and only build.
fn built(lines: &[&str]) -> Option<Tree> {
    let number = |word: &str| word.parse().ok();
    let kind = |word: &str| SyntaxKind::from_u8(word.parse().ok()?);
    let root = lines.iter().position(|line| *line == "root")?;
    let (before, after) = lines.split_at(root);
    let asks =
        |line: &&str| ["root", "new", ""].contains(line) || line.starts_with("look ") || line.starts_with("number ");
    if !after.iter().all(asks) {
        return None;
    }
    let mut builder = Builder::new().ok()?;
    for line in before {
        let (command, rest) = line.split_once(' ').unwrap_or((line, ""));
        let (first, second) = rest.split_once(' ').unwrap_or((rest, ""));
        match command {
            "leaf" => builder.leaf(kind(first)?, second).ok()?,
            "error" => {
                let (message, text) = rest.split_once('\t')?;
                builder.error(message, text).ok()?
            }
            "inner" => builder.wrap(kind(first)?, number(second)?).ok()?,
            "warn" | "warnat" => builder.warn(rest).ok()?,
            "hint" | "hintat" => builder.hint(rest).ok()?,
            _ => return None,
        };
    }
    builder.number(FileId::MIN, Span::FULL).ok()
}

/// The sections of a text, by the lines that begin them.
fn sections(text: &str, begins: impl Fn(&str) -> bool) -> Vec<Vec<&str>> {
    let mut sections: Vec<Vec<&str>> = Vec::new();
    for line in text.split('\n') {
        if begins(line) {
            sections.push(Vec::new());
        } else if let Some(section) = sections.last_mut() {
            section.push(line);
        }
    }
    sections
}

/// A place as a look prints it.
fn place(node: &Node<'_>) -> String {
    let path: Vec<_> = node.path().iter().map(usize::to_string).collect();
    if path.is_empty() {
        "-".to_string()
    } else {
        path.join(".")
    }
}

/// The places of the nodes that an accessor answers, by their indices.
fn places(node: &Node<'_>, accessor: Accessor) -> Result<Vec<String>, Error> {
    let mut found = Vec::new();
    while let Some(answered) = node.view_node(accessor, found.len())? {
        assert_eq!(
            node.view_at(accessor, found.len())?,
            Some(Answer::Node(answered.span()))
        );
        found.push(place(&answered));
    }
    assert_eq!(node.view_at(accessor, found.len())?, None);
    Ok(found)
}

/// The places in an answer of a look. It tells the variant of some answers, and more of the items of an import and of the
/// arguments in math.
fn wanted_places(accessor: Accessor, answer: &str) -> Vec<String> {
    let is_place = |word: &&str| word.starts_with(|character: char| character.is_ascii_digit());
    match accessor {
        Accessor::ImportItemsIter => {
            let items = answer.split('(').skip(1).filter_map(|item| item.split_once(')'));
            items.map(|(place, _)| place.to_string()).collect()
        }
        _ => {
            let words = answer.split(|character: char| !character.is_ascii_digit() && character != '.');
            words.filter(is_place).map(str::to_string).collect()
        }
    }
}

/// Compares the nodes that an accessor answers with the answer of a look.
fn compare_nodes(node: &Node<'_>, accessor: Accessor, wanted: &str, called: &str) -> Result<(), Error> {
    if wanted == "Wildcard" {
        let star = node.view_node(accessor, 0)?.expect("the star of an import");
        assert_eq!(star.kind(), SyntaxKind::Star);
        assert_eq!(star.parent().map(|node| node.span()), Some(node.span()));
    } else {
        assert_eq!(
            places(node, accessor)?,
            wanted_places(accessor, wanted),
            "{} {called}",
            place(node)
        );
    }
    Ok(())
}

/// Compares the answers about a tree with the lines that are wanted, and returns how many were compared.
fn compare(tree: &Tree, wanted: &[&str]) -> Result<usize, Error> {
    let wanted: HashMap<_, _> = wanted
        .iter()
        .filter_map(|line| {
            let (place, answer) = line.split_once(' ')?;
            let (accessor, answer) = answer.split_once(' ')?;
            Some(((place, accessor), answer))
        })
        .collect();
    let mut compared = 0;
    for node in tree.root().preorder() {
        let place = place(&node);
        for (name, accessor) in accessors(node.kind()) {
            let called = format!("{:?}.{name}", node.kind());
            let says = printed(&node, *accessor)?;
            assert_eq!(
                wanted.get(&(place.as_str(), called.as_str())),
                Some(&says.as_str()),
                "{place} {called}"
            );
            compared += 1;
        }
        for (name, accessor) in node_accessors(node.kind()) {
            let called = format!("{:?}.{name}", node.kind());
            let answer = wanted.get(&(place.as_str(), called.as_str()));
            compare_nodes(&node, *accessor, answer.expect("the look has an answer"), &called)?;
            compared += 1;
        }
    }
    Ok(compared)
}

#[test]
fn accessors_answer_what_the_rust_crate_answers() -> Result<(), Error> {
    let folder = concat!(env!("CARGO_MANIFEST_DIR"), "/../../crates/typst_run");
    let read = |name| fs::read_to_string(format!("{folder}/{name}")).expect("the look and its answers are there");
    let (look, wanted) = (read("stdin"), read("stdout"));
    let (asked, answers) = (
        sections(&look, |line| line.starts_with("mark ")),
        sections(&wanted, |line| line.starts_with('#')),
    );
    assert_eq!(asked.len(), answers.len());
    let mut compared = 0;
    for (lines, wanted) in asked.iter().zip(&answers) {
        if !lines.contains(&"look views") || wanted.contains(&"no tree") {
            continue;
        }
        if let Some(tree) = built(lines) {
            compared += compare(&tree, wanted)?;
        }
    }
    // The look has 6,960 answers of these accessors. The other ones are of trees that are edited, or that are built twice.
    assert!(compared > 6_900, "{compared} answers are compared");
    Ok(())
}
