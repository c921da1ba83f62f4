//! What the accessors of typed views return for a node.

use crate::raw::ViewAnswer;
use crate::span::Span;

/// What an accessor returns for a node.
#[derive(Clone, Debug, PartialEq, Eq, Hash)]
#[non_exhaustive]
pub enum Answer {
    /// A boolean.
    Flag(bool),
    /// A natural number.
    Natural(u64),
    /// An integer with a sign.
    Integer(i64),
    /// A character.
    Character(char),
    /// A text.
    Text(String),
    /// A node of the tree, by its span.
    Node(Span),
}

impl Answer {
    /// The answer that the library returns, with its text, if there is one.
    pub(crate) fn of(told: ViewAnswer, text: String) -> Option<Answer> {
        match told.form {
            0 => None,
            1 => Some(Answer::Flag(told.number == 1)),
            2 => Some(Answer::Natural(told.number)),
            3 => Some(Answer::Integer(told.integer)),
            4 => {
                let character = u32::try_from(told.number).ok().and_then(char::from_u32);
                Some(Answer::Character(character.expect("a character is told by its code")))
            }
            5 => Some(Answer::Text(text)),
            6 => Some(Answer::Node(
                Span::from_number(told.number).expect("a node that is held is numbered"),
            )),
            form => unreachable!("the library answers form {form}"),
        }
    }
}
