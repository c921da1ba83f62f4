//! The names and the sets of kinds.

use crate::handle;
use crate::kind::SyntaxKind;
use std::fmt;
use std::str::FromStr;

/// A named set of kinds. It holds the kinds that such a thing may begin with, or that it may be.
#[derive(Clone, Copy, Debug, PartialEq, Eq, Hash)]
#[repr(u32)]
pub enum SyntaxSet {
    /// What a statement may begin with.
    Stmt,
    /// What an expression in an equation may begin with.
    MathExpr,
    /// What a code expression without an operator may begin with.
    AtomicCodeExpr,
    /// A unary operator.
    UnaryOp,
    /// A binary operator.
    BinaryOp,
    /// What a code expression may begin with.
    CodeExpr,
    /// What an item of an array or a dictionary may begin with.
    ArrayOrDictItem,
    /// What an argument may begin with.
    Arg,
    /// What a pattern that holds no other may begin with.
    PatternLeaf,
    /// What a pattern may begin with.
    Pattern,
    /// What a parameter may begin with.
    Param,
    /// What an item of a destructuring pattern may begin with.
    DestructuringItem,
}

impl SyntaxSet {
    /// Whether the set holds a kind.
    pub fn contains(self, kind: SyntaxKind) -> bool {
        handle::kind_in_set(kind.to_u8(), self as u32).expect("there is such a kind and such a set")
    }
}

impl fmt::Display for SyntaxKind {
    /// Writes the name, as messages to a user write it.
    fn fmt(&self, f: &mut fmt::Formatter<'_>) -> fmt::Result {
        f.pad(self.name())
    }
}

/// A name or a number that no kind has.
#[derive(Clone, Copy, Debug, PartialEq, Eq, Hash)]
pub struct NoKind;

impl fmt::Display for NoKind {
    fn fmt(&self, f: &mut fmt::Formatter<'_>) -> fmt::Result {
        f.write_str("there is no such kind")
    }
}

impl std::error::Error for NoKind {}

impl FromStr for SyntaxKind {
    type Err = NoKind;

    /// The kind with a name, as [`SyntaxKind::name`] returns it.
    fn from_str(name: &str) -> Result<SyntaxKind, NoKind> {
        SyntaxKind::from_name(name).ok_or(NoKind)
    }
}

impl TryFrom<u8> for SyntaxKind {
    type Error = NoKind;

    /// The kind with a number.
    fn try_from(number: u8) -> Result<SyntaxKind, NoKind> {
        SyntaxKind::from_u8(number).ok_or(NoKind)
    }
}

impl SyntaxKind {
    /// The kind with a name, as [`SyntaxKind::name`] returns it. No two kinds have the same name.
    pub fn from_name(name: &str) -> Option<SyntaxKind> {
        let number = handle::kind_of_name(name).ok()?;
        u8::try_from(number).ok().and_then(SyntaxKind::from_u8)
    }
}

#[cfg(test)]
mod tests {
    use super::*;

    #[test]
    fn the_library_has_the_version_of_the_crate() {
        let parts = env!("CARGO_PKG_VERSION").split('.').map(|part| part.parse::<u32>());
        let number = parts.fold(0, |number, part| {
            100 * number + part.expect("a version has three numbers")
        });
        assert_eq!(handle::version(), number);
    }

    #[test]
    fn the_names_of_the_table_are_those_of_the_library() {
        for kind in SyntaxKind::all() {
            assert_eq!(
                handle::kind_name(kind.to_u8(), kind.name().len()).as_deref(),
                Ok(kind.name())
            );
            assert_eq!(SyntaxKind::from_name(kind.name()), Some(*kind));
        }
        assert_eq!(SyntaxKind::from_name("no kind"), None);
        assert_eq!("heading".parse(), Ok(SyntaxKind::Heading));
        assert_eq!("Heading".parse::<SyntaxKind>(), Err(NoKind));
        assert_eq!(SyntaxKind::try_from(0), Ok(SyntaxKind::all()[0]));
        assert_eq!(SyntaxKind::try_from(255), Err(NoKind));
        assert_eq!(format!("{:>9}", SyntaxKind::Heading), "  heading");
    }

    #[test]
    fn the_classes_of_the_table_are_those_of_the_library() {
        for kind in SyntaxKind::all() {
            let wanted = handle::kind_classes(kind.to_u8()).expect("there is such a kind");
            let told = crate::raw::KindClasses {
                grouping: kind.is_grouping().into(),
                terminator: kind.is_terminator().into(),
                block: kind.is_block().into(),
                stmt: kind.is_stmt().into(),
                keyword: kind.is_keyword().into(),
                trivia: kind.is_trivia().into(),
            };
            assert_eq!(told, wanted, "{kind:?}");
        }
    }

    #[test]
    fn kinds_are_in_their_classes_and_sets() {
        assert!(SyntaxKind::Let.is_keyword() && SyntaxKind::Space.is_trivia() && SyntaxKind::LeftParen.is_grouping());
        assert!(
            SyntaxKind::CodeBlock.is_block()
                && SyntaxKind::LetBinding.is_stmt()
                && SyntaxKind::Semicolon.is_terminator()
        );
        assert!(!SyntaxKind::Text.is_trivia() && !SyntaxKind::Text.is_keyword() && !SyntaxKind::Let.is_stmt());
        assert!(SyntaxSet::Stmt.contains(SyntaxKind::Let) && !SyntaxSet::UnaryOp.contains(SyntaxKind::Let));
        assert!(
            SyntaxSet::BinaryOp.contains(SyntaxKind::Star) && SyntaxSet::DestructuringItem.contains(SyntaxKind::Dots)
        );
    }
}
