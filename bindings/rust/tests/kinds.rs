//! Tests of the numbers and the names of kinds.
use typst_tree::SyntaxKind;

#[test]
fn numbers_go_both_ways() {
    assert_eq!(SyntaxKind::all().len(), 137);
    for (number, kind) in SyntaxKind::all().iter().enumerate() {
        assert_eq!(usize::from(kind.to_u8()), number);
        assert_eq!(SyntaxKind::from_u8(kind.to_u8()), Some(*kind));
    }
    assert_eq!(SyntaxKind::from_u8(137), None);
}

#[test]
fn some_kinds_have_these_numbers_and_names() {
    assert_eq!(
        (SyntaxKind::End.to_u8(), SyntaxKind::DestructAssignment.to_u8()),
        (0, 136)
    );
    assert_eq!(SyntaxKind::Let.name(), "keyword `let`");
    assert_eq!(SyntaxKind::Error.name(), "syntax error");
}
