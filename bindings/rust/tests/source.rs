//! Tests of texts that are edited.
use typst_tree::{
    Accessor, Answer, ColumnUnit, Error, FileId, LineColumn, LineEnds, NodeClass, Severity, Side, Source, Span,
    SyntaxKind, Touched,
};

fn opened(text: &str) -> Result<Source, Error> {
    Source::new(FileId::MIN, text)
}

#[test]
fn an_edit_leads_to_the_tree_that_parsing_anew_makes() -> Result<(), Error> {
    let mut source = opened("= Notes\n\nSome text.\n\nThe end.\n")?;
    for (range, with) in [(14..14, "*"), (0..2, ""), (9..9, "`\n\n"), (0..1, "\u{e9}"), (0..2, "")] {
        source.edit(range, with)?;
        let anew = opened(source.text())?;
        assert_eq!(format!("{source:?}"), format!("{anew:?}"));
    }
    assert_eq!(source.text(), "otes\n\nSo`\n\nme *text.\n\nThe end.\n");
    Ok(())
}

#[test]
fn nodes_that_an_edit_does_not_touch_keep_their_spans() -> Result<(), Error> {
    let mut source = opened("First.\n\nSecond.\n\nThird.\n\nThe fourth one.\n")?;
    let last = source.leaf_at(30, Side::Before)?.unwrap().span();
    let done = source.edit(0..5, "1st")?;
    assert_eq!(done.reparsed, 0..6);
    assert_eq!(source.find(last)?.unwrap().leaf_text(), "The fourth one.");
    Ok(())
}

#[test]
fn a_range_that_does_not_fit_changes_nothing() -> Result<(), Error> {
    let mut source = opened("caf\u{e9}")?;
    #[allow(clippy::reversed_empty_ranges)]
    for range in [4..5, 5..4, 0..6, 6..6, usize::MAX..usize::MAX] {
        assert_eq!(source.edit(range, "x").unwrap_err(), Error::Range);
    }
    assert_eq!(source.text(), "caf\u{e9}");
    source.edit(3..5, "e")?;
    assert_eq!(source.text(), "cafe");
    Ok(())
}

#[test]
fn an_empty_text_is_a_root_without_children() -> Result<(), Error> {
    let source = opened("")?;
    assert_eq!(
        (source.root().kind(), source.root().children().len()),
        (SyntaxKind::Markup, 0)
    );
    assert_eq!(source.text(), "");
    Ok(())
}

#[test]
fn lines_and_columns_lead_to_bytes_and_back() -> Result<(), Error> {
    let mut source = opened("a\u{1f5fa}b\r\n\u{e9}c")?;
    let columns = [
        (ColumnUnit::Byte, 5),
        (ColumnUnit::Character, 2),
        (ColumnUnit::Utf16, 3),
    ];
    for (unit, column) in columns {
        let place = LineColumn { line: 0, column };
        assert_eq!(source.byte_to_line_column(5, unit), Some(place));
        assert_eq!(source.line_column_to_byte(place, unit), Some(5));
    }
    assert_eq!(source.len_lines(), 2);
    assert_eq!(source.byte_to_line_column(2, ColumnUnit::Byte), None);
    assert_eq!(source.byte_to_line_column(12, ColumnUnit::Byte), None);
    source.edit(6..8, "")?;
    assert_eq!(source.len_lines(), 1);
    let place = LineColumn { line: 0, column: 3 };
    assert_eq!(source.line_column_to_byte(place, ColumnUnit::Character), Some(6));
    let beyond = LineColumn { line: 1, column: 0 };
    assert_eq!(source.line_column_to_byte(beyond, ColumnUnit::Character), None);
    Ok(())
}

#[test]
fn a_text_is_read_in_parts_and_by_its_lines() -> Result<(), Error> {
    let mut source = opened("a\u{e9}\r\nb\n")?;
    assert_eq!(
        (source.text_in(1..3).as_deref(), source.text_in(2..3)),
        (Some("\u{e9}"), None)
    );
    #[allow(clippy::reversed_empty_ranges)]
    let reversed = 3..1;
    assert_eq!((source.text_in(reversed), source.text_in(0..8)), (None, None));
    let lines: Vec<_> = (0..4).map(|line| source.line_to_range(line)).collect();
    assert_eq!(lines, [Some(0..5), Some(5..7), Some(7..7), None]);
    assert_eq!(
        (source.text(), source.len(), source.is_empty()),
        ("a\u{e9}\r\nb\n", 7, false)
    );
    source.edit(0..7, "c")?;
    assert_eq!(source.text(), "c");
    Ok(())
}

#[test]
fn spans_are_followed_over_edits() -> Result<(), Error> {
    let mut source = opened("= One\n\n= Two\n")?;
    let headings: Vec<Span> = source
        .root()
        .children()
        .filter(|node| node.kind() == SyntaxKind::Heading)
        .map(|node| node.span())
        .collect();
    let edited = source.edit(9..12, "2nd")?;
    assert_eq!(edited.follow(headings[0]), Some(headings[0]));
    let second = edited.follow(headings[1]).unwrap();
    assert_eq!(source.range(second)?, Some(7..12));
    let edited = source.edit(0..7, "")?;
    assert_eq!(edited.follow(headings[0]), None);
    let second = edited.follow(second).unwrap();
    assert_eq!(source.find(second)?.map(|node| node.text()), Some(Ok("= 2nd".into())));
    Ok(())
}

#[test]
fn lines_end_as_they_are_asked_to() -> Result<(), Error> {
    let mut source = opened("a\r\nb\x0bc\u{2028}")?;
    assert_eq!(source.len_lines(), 4);
    source.set_line_ends(LineEnds::Editor)?;
    assert_eq!(source.len_lines(), 2);
    assert_eq!(source.line_to_range(1), Some(3..9));
    source.edit(9..9, "\x0b\n")?;
    assert_eq!((source.len_lines(), source.clone().len_lines()), (3, 3));
    source.set_line_ends(LineEnds::Unicode)?;
    assert_eq!(source.len_lines(), 6);
    Ok(())
}

#[test]
fn a_column_past_the_end_of_a_line_is_its_end() -> Result<(), Error> {
    let source = opened("a\u{1d11e}\r\nb")?;
    let byte = |line, column| source.line_column_to_byte_clamped(LineColumn { line, column }, ColumnUnit::Utf16);
    let first = [byte(0, 0), byte(0, 1), byte(0, 2), byte(0, 3), byte(0, 4)];
    assert_eq!(first, [Some(0), Some(1), None, Some(5), Some(5)]);
    assert_eq!((byte(1, 9), byte(2, 0)), (Some(8), None));
    Ok(())
}

#[test]
fn offsets_count_in_units() -> Result<(), Error> {
    let source = opened("a\u{1d11e}\nb")?;
    let units = [ColumnUnit::Byte, ColumnUnit::Character, ColumnUnit::Utf16];
    assert_eq!(
        units.map(|unit| source.byte_to_offset(6, unit)),
        [Some(6), Some(3), Some(4)]
    );
    assert_eq!(
        units.map(|unit| source.offset_to_byte(4, unit)),
        [None, Some(7), Some(6)]
    );
    assert_eq!(source.byte_to_offset(2, ColumnUnit::Utf16), None);
    assert_eq!(source.offset_to_byte(6, ColumnUnit::Utf16), None);
    Ok(())
}

#[test]
fn the_smallest_node_that_covers_bytes_is_found() -> Result<(), Error> {
    let source = opened("= One *two*")?;
    let cover = |range| {
        source
            .find_cover(range)
            .map(|node| node.map(|node| (node.kind(), node.path().to_vec())))
    };
    assert_eq!(cover(7..9)?, Some((SyntaxKind::Text, vec![0, 2, 2, 1, 0])));
    assert_eq!(cover(6..9)?, Some((SyntaxKind::Strong, vec![0, 2, 2])));
    assert_eq!(cover(0..3)?, Some((SyntaxKind::Heading, vec![0])));
    assert_eq!(cover(0..12)?, None);
    Ok(())
}

#[test]
fn code_and_equations_are_read_by_views() -> Result<(), Error> {
    let mut source = opened("#let name = \"a\"\n$x^2$\n")?;
    let binding = source
        .root()
        .child_of(NodeClass::Of(SyntaxKind::LetBinding), 0)
        .unwrap();
    let name = binding.view_node(Accessor::LetBindingKind, 0)?.unwrap();
    assert_eq!((name.kind(), name.text()?), (SyntaxKind::Ident, "name".into()));
    let kept = binding.span();
    let edited = source.edit(13..14, "b\\u{41}")?;
    assert_eq!((edited.reparsed.clone(), edited.follow(kept)), (0..22, Some(kept)));
    let value = source
        .find(kept)?
        .unwrap()
        .view_node(Accessor::LetBindingInit, 0)?
        .unwrap();
    assert_eq!(value.view(Accessor::StrGet)?, Some(Answer::Text("bA".into())));
    let equation = source.root().child_of(NodeClass::Of(SyntaxKind::Equation), 0).unwrap();
    let power = equation
        .view_node(Accessor::EquationBody, 0)?
        .unwrap()
        .child(0)
        .unwrap();
    let top = power.view_node(Accessor::MathAttachTop, 0)?.unwrap();
    assert_eq!((power.kind(), top.text()?), (SyntaxKind::MathAttach, "2".into()));
    source.edit(10..11, "")?;
    let told = source.diagnostics()?;
    assert_eq!(told.len(), 1);
    assert_eq!(
        (told[0].message.as_str(), told[0].range.clone()),
        ("expected semicolon or line break", 9..9)
    );
    Ok(())
}

#[test]
fn errors_and_warnings_are_told_with_their_hints() -> Result<(), Error> {
    let source = opened("#{a & b}\n**\n")?;
    let told = source.diagnostics()?;
    let hints: Vec<_> = told
        .iter()
        .flat_map(|told| &told.hints)
        .map(|hint| hint.text.as_str())
        .collect();
    assert_eq!(
        (
            told.len(),
            &told[0].severity,
            told[0].range.clone(),
            told[0].message.as_str()
        ),
        (2, &Severity::Error, 4..5, "the character `&` is not valid in code")
    );
    assert_eq!(
        (&told[1].severity, told[1].range.clone(), told[1].message.as_str()),
        (&Severity::Warning, 9..11, "no text within stars")
    );
    assert_eq!(
        hints,
        [
            "in Typst, `and` is used for logical AND",
            "using multiple consecutive stars (e.g. **) has no additional effect"
        ]
    );
    Ok(())
}

#[test]
fn no_text_makes_a_deep_tree() -> Result<(), Error> {
    for text in [
        "#a".to_owned() + &".b".repeat(1000),
        "#[".repeat(1000),
        "- ".repeat(1000),
    ] {
        let source = opened(&text)?;
        let depth = source.root().preorder().map(|node| node.path().len()).max();
        assert!(depth.is_some_and(|depth| depth <= 255));
        assert_eq!(source.text(), text);
    }
    Ok(())
}

#[test]
fn a_copy_has_the_same_spans_and_goes_its_own_way() -> Result<(), Error> {
    let mut source = opened("= One\n\ntext")?;
    let title = source.at(&[0, 2, 0]).unwrap().span();
    let copy = source.clone();
    source.edit(0..7, "")?;
    assert_eq!((copy.text(), source.text()), ("= One\n\ntext", "text"));
    assert_eq!(copy.find(title)?.unwrap().text()?, "One");
    assert!(source.find(title)?.is_none());
    Ok(())
}

#[test]
fn an_edit_tells_its_path_and_how_many_nodes_moved() -> Result<(), Error> {
    let mut source = opened("= One\n\n*two* words")?;
    let edited = source.edit(10..11, "n")?;
    assert_eq!(edited.change.path(), [2, 1]);
    assert_eq!(edited.change.touched, Touched::Leaf { depth: 2, index: 0 });
    assert_eq!(edited.change.moved, 0);
    let edited = source.edit(0..0, "*a* ")?;
    assert_eq!((edited.change.path(), edited.change.moved), (vec![], 0));
    Ok(())
}
