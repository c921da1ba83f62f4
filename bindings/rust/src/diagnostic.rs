//! What a tree reports: errors and warnings.

use crate::error::Error;
use crate::handle::Handle;
use crate::raw;
use crate::span::Span;
use std::ops::Range;

/// The number of an error in `typst.h`.
const ERROR: u32 = 301;
/// The number of a warning.
const WARNING: u32 = 302;

/// How severe a diagnostic is.
#[derive(Clone, Copy, Debug, PartialEq, Eq, Hash)]
pub enum Severity {
    /// Something that isn't valid syntax.
    Error,
    /// Something that is valid, but may not be what was meant.
    Warning,
}

/// An error or a warning of a node.
#[derive(Clone, Debug, PartialEq, Eq)]
pub struct Diagnostic {
    /// How severe it is.
    pub severity: Severity,
    /// The span of the node.
    pub span: Span,
    /// The bytes of the tree's text that it is about.
    pub range: Range<usize>,
    /// What is wrong.
    pub message: String,
    /// How to mend it.
    pub hints: Vec<Hint>,
}

/// A way to mend an error or a warning.
#[derive(Clone, Debug, PartialEq, Eq)]
pub struct Hint {
    /// What to do.
    pub text: String,
    /// The bytes of the tree's text that it is about, if any.
    pub range: Option<Range<usize>>,
}

/// The bytes that something is about.
fn range_of(told: &raw::Diagnostic) -> Option<Range<usize>> {
    (told.placed == 1).then_some(told.start..told.end)
}

/// The errors and then the warnings of the tree that is held.
pub(crate) fn all(handle: &Handle) -> Result<Vec<Diagnostic>, Error> {
    let (told, texts) = handle.diagnostics()?;
    let mut all: Vec<Diagnostic> = Vec::new();
    let mut begin = 0;
    for one in &told {
        let text = texts[begin..begin + one.len].to_owned();
        begin += one.len;
        let range = range_of(one);
        match one.severity {
            ERROR | WARNING => all.push(Diagnostic {
                severity: if one.severity == ERROR {
                    Severity::Error
                } else {
                    Severity::Warning
                },
                span: Span::from_number(one.number).expect("an error or a warning is about a node"),
                range: range.expect("a node has bytes of the text"),
                message: text,
                hints: Vec::new(),
            }),
            _ => {
                let before = all.last_mut().expect("a hint comes after an error or a warning");
                before.hints.push(Hint { text, range });
            }
        }
    }
    Ok(all)
}
