//! A bookmark is the span of a node. It is followed once after each edit, and is `None` once the node is gone.
use std::ops::Range;
use typst_tree::{Error, FileId, NodeClass, Source, Span, SyntaxKind};

/// A text with a bookmark.
struct Marked {
    source: Source,
    bookmark: Option<Span>,
}

impl Marked {
    /// Edits the text, follows the bookmark, and prints where it is.
    fn edit(&mut self, range: Range<usize>, with: &str) -> Result<(), Error> {
        let edited = self.source.edit(range, with)?;
        self.bookmark = self.bookmark.and_then(|span| edited.follow(span));
        let Some(span) = self.bookmark else {
            println!("the heading is gone");
            return Ok(());
        };
        let range = self.source.range(span)?.expect("a followed span leads to its node");
        println!("bytes {range:?}: {}", &self.source.text()[range.clone()]);
        Ok(())
    }
}

fn main() -> Result<(), Error> {
    let source = Source::new(FileId::MIN, "First words.\n\n= Tree\n\nLast words.\n")?;
    let heading = source.root().child_of(NodeClass::Of(SyntaxKind::Heading), 0);
    let bookmark = heading.map(|node| node.span());
    let mut marked = Marked { source, bookmark };
    // A paragraph comes before the heading.
    marked.edit(0..0, "A word before.\n\n")?;
    // A letter comes into its title, and the title becomes bold.
    marked.edit(36..36, "s")?;
    marked.edit(32..37, "*Trees*")?;
    // An equal heading is inserted before it, and then another one comes with its own line.
    marked.edit(30..30, "= *Trees*\n\n")?;
    marked.edit(41..50, "= *Trees*\n\n= *Trees*")?;
    // It is deleted, and the deletion is undone.
    marked.edit(41..52, "")?;
    marked.edit(41..41, "= *Trees*\n\n")
}
