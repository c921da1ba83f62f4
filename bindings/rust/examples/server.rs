//! An example of a language server: it keeps the text of an editor together with its tree. The editor names places by lines
//! and by columns in units of UTF-16, both from 0, as its protocol does. After each change the server prints what it had to
//! parse, which leaf is at the cursor, and where errors are.
use std::ops::Range;
use typst_tree::{ColumnUnit, Error, FileId, LineColumn, Side, Source};

/// A change that an editor sends: a text that replaces what is between two places.
struct Change {
    range: Range<(usize, usize)>,
    text: &'static str,
}

/// The byte at a line and a column.
fn byte_at(source: &Source, (line, column): (usize, usize)) -> Result<usize, Error> {
    let byte = source.line_column_to_byte(LineColumn { line, column }, ColumnUnit::Utf16);
    byte.ok_or(Error::NoPlace)
}

/// The line and the column of a byte, as the editor counts.
fn place_of(source: &Source, byte: usize) -> (usize, usize) {
    let place = source.byte_to_line_column(byte, ColumnUnit::Utf16);
    let LineColumn { line, column } = place.expect("a node begins and ends between characters");
    (line, column)
}

/// What is wrong, and where.
fn print_errors(source: &Source) -> Result<(), Error> {
    for told in source.diagnostics()? {
        let (start, end) = (place_of(source, told.range.start), place_of(source, told.range.end));
        println!("  {:?} to {:?}: {}", start, end, told.message);
    }
    Ok(())
}

fn apply(source: &mut Source, change: &Change) -> Result<(), Error> {
    let range = byte_at(source, change.range.start)?..byte_at(source, change.range.end)?;
    let cursor = range.start + change.text.len();
    let edited = source.edit(range, change.text)?;
    println!(
        "{:?} at {:?}: parsed bytes {:?}",
        change.text, change.range, edited.reparsed
    );
    if let Some(leaf) = source.leaf_at(cursor, Side::Before)? {
        println!("  at the cursor: {} {:?}", leaf.kind(), leaf.leaf_text());
    }
    print_errors(source)
}

fn main() -> Result<(), Error> {
    let mut source = Source::new(FileId::MIN, "= Notes\n\nSome \u{1f5fa} text.\n\nThe last paragraph.\n")?;
    let typed = [
        ((2, 8)..(2, 8), "*"),
        ((2, 13)..(2, 13), "*"),
        ((4, 0)..(4, 19), "Done."),
    ];
    for (range, text) in typed {
        apply(&mut source, &Change { range, text })?;
    }
    // Column 6 is within the map, which has two units.
    for range in [(2, 6)..(2, 8), (9, 0)..(9, 0)] {
        let change = Change { range, text: "" };
        if let Err(error) = apply(&mut source, &change) {
            println!("{:?}: {error}", change.range);
        }
    }
    print!("{}", source.text());
    Ok(())
}
