//! The first program: it opens a text, edits it, and finds a heading again by its number.
use typst_tree::{ColumnUnit, Error, FileId, NodeClass, Source, SyntaxKind};

fn main() -> Result<(), Error> {
    let mut source = Source::new(FileId::MIN, "First words.\n\n= Trees\n\nLast words.\n")?;
    let heading = source.root().child_of(NodeClass::Of(SyntaxKind::Heading), 0);
    let heading = heading.ok_or(Error::NotFound)?.span();

    // Somebody writes a paragraph before the heading.
    let done = source.edit(0..0, "A word before.\n\n")?;
    println!("bytes {:?} were parsed anew", done.reparsed);

    // The span is followed over the edit, and leads to the heading, wherever it is now.
    let heading = done.follow(heading).ok_or(Error::NotFound)?;
    let bytes = source.range(heading)?.ok_or(Error::NotFound)?;
    let at = source.byte_to_line_column(bytes.start, ColumnUnit::Character);
    let line = at.ok_or(Error::NoPlace)?.line + 1;
    println!("the heading is in line {line}, bytes {bytes:?}");
    Ok(())
}
