//! A tree that is built by hand, an edit, and a node that is found again after the edit.
use typst_tree::{Builder, Error, FileId, Span, SyntaxKind};

fn main() -> Result<(), Error> {
    let mut builder = Builder::new()?;
    builder.leaf(SyntaxKind::Text, "Hello")?;
    builder.leaf(SyntaxKind::Text, "world")?;
    builder.wrap(SyntaxKind::Markup, 2)?;
    let mut tree = builder.number(FileId::MIN, Span::FULL)?;
    let world = tree.root().children().next_back().map(|node| node.span());

    tree.replace(&[], 1..1, |nodes| nodes.leaf(SyntaxKind::Space, " ").map(drop))?;
    println!("{}", tree.root().text()?);
    if let Some(node) = world.map(|span| tree.find(span)).transpose()?.flatten() {
        println!("the second word begins at byte {}", node.offset()?);
    }
    Ok(())
}
