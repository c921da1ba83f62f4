//! A parser of one's own, which isn't incremental: it makes the whole tree anew after each edit of the text. One call puts
//! the new tree in place of the old one, and the nodes that go on can be followed.
use std::iter::Peekable;
use std::str::Chars;
use typst_tree::{Builder, Error, FileId, Span, SyntaxKind, Tree};

/// A parser of sums and products of whole numbers, with parentheses.
struct Parser<'t> {
    rest: Peekable<Chars<'t>>,
    nodes: Builder,
}

impl Parser<'_> {
    /// Adds the operator or parenthesis that is next.
    fn sign(&mut self, kind: SyntaxKind) -> Result<(), Error> {
        let sign = self.rest.next().map(String::from).unwrap_or_default();
        self.nodes.leaf(kind, &sign).map(drop)
    }

    /// A number, or a sum in parentheses. Anything else is an error without text.
    fn factor(&mut self) -> Result<(), Error> {
        if self.rest.peek() == Some(&'(') {
            self.sign(SyntaxKind::LeftParen)?;
            self.sum()?;
            if self.rest.peek() == Some(&')') {
                self.sign(SyntaxKind::RightParen)?;
            } else {
                self.nodes.error("expected a closing parenthesis", "")?;
            }
            return self.nodes.wrap(SyntaxKind::Parenthesized, 3).map(drop);
        }
        let mut digits = String::new();
        while let Some(digit) = self.rest.next_if(char::is_ascii_digit) {
            digits.push(digit);
        }
        match digits.is_empty() {
            true => self.nodes.error("expected a number", "").map(drop),
            false => self.nodes.leaf(SyntaxKind::Int, &digits).map(drop),
        }
    }

    /// Factors with `*` between them.
    fn product(&mut self) -> Result<(), Error> {
        self.factor()?;
        while self.rest.peek() == Some(&'*') {
            self.sign(SyntaxKind::Star)?;
            self.factor()?;
            self.nodes.wrap(SyntaxKind::Binary, 3)?;
        }
        Ok(())
    }

    /// Products with `+` between them.
    fn sum(&mut self) -> Result<(), Error> {
        self.product()?;
        while self.rest.peek() == Some(&'+') {
            self.sign(SyntaxKind::Plus)?;
            self.product()?;
            self.nodes.wrap(SyntaxKind::Binary, 3)?;
        }
        Ok(())
    }
}

/// The nodes of a text: code with a sum, and an error with the rest of the text if there is one.
fn parsed(text: &str) -> Result<Builder, Error> {
    let mut parser = Parser {
        rest: text.chars().peekable(),
        nodes: Builder::new()?,
    };
    parser.sum()?;
    let rest = String::from_iter(parser.rest);
    if !rest.is_empty() {
        parser.nodes.error("expected the end", &rest)?;
    }
    let count = parser.nodes.count();
    parser.nodes.wrap(SyntaxKind::Code, count)?;
    Ok(parser.nodes)
}

/// Prints where a node is.
fn show(tree: &Tree, text: &str, span: Option<Span>) -> Result<(), Error> {
    let range = span.map(|span| tree.range(span)).transpose()?.flatten();
    match range {
        Some(range) => println!("{text}: bytes {range:?}, {:?}", &text[range.clone()]),
        None => println!("{text}: gone"),
    }
    Ok(())
}

fn main() -> Result<(), Error> {
    let mut text = String::from("1+2*(30+4)");
    let mut tree = parsed(&text)?.number(FileId::MIN, Span::FULL)?;
    let thirty = tree.find_range(5..7)?.map(|node| node.span());
    let mut kept = thirty;
    show(&tree, &text, kept)?;
    // A digit of another number, one of this one, a factor before it, a parenthesis that goes and comes back.
    for (range, with) in [(0..1, "10"), (7..7, "5"), (5..5, "7*"), (13..14, ""), (13..13, ")")] {
        text.replace_range(range, with);
        let change = tree.update(parsed(&text)?)?;
        kept = kept.and_then(|span| change.follow(span));
        show(&tree, &text, kept)?;
    }
    let same = if kept == thirty { "the first one" } else { "another one" };
    println!("its span is {same}");
    Ok(())
}
