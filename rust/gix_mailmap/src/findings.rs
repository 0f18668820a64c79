use crate::sys;

/// What is wrong with a line of a mailmap.
#[derive(Clone, Copy, PartialEq, Eq, Debug, Hash)]
pub struct Finding {
    /// The number of the line, counted from 1.
    pub line: usize,
    /// What is wrong with it.
    pub kind: Kind,
}

/// What may be wrong with a line. A line of one of the first four kinds gives no entry.
#[derive(Clone, Copy, PartialEq, Eq, Debug, Hash)]
#[non_exhaustive]
pub enum Kind {
    /// There is no `<`.
    NoEmail,
    /// The first `<` has no `>` after it.
    MissingClosingBracket,
    /// The first email is empty or white space.
    EmptyEmail,
    /// There is only an email.
    NothingToMap,
    /// The second `<` has no `>` after it. The line is read as if it ended before that `<`.
    UnclosedSecond,
    /// Text after the second email, or after the only one, is ignored.
    IgnoredText,
    /// Later lines override the line, or other lines already say it.
    NoEffect {
        /// The number of the last line for the same old email, and the same old name if there is one, that does have an
        /// effect. It may come before or after.
        beside: usize,
    },
    /// The line maps to a contact that the mailmap maps to another.
    ItselfMapped,
    /// git reads the line differently.
    GitReads,
    /// The mailmap begins with U+FEFF, which is a part of its first line.
    ByteOrderMark,
    /// A name begins with `#`, which begins a comment only as the first byte of a line.
    CommentInLine,
    /// A kind of a later version of the library, by its number.
    Other(u32),
}

/// What is wrong with the lines of a mailmap, in their order.
///
/// ```
/// use gix_mailmap::{verify, Kind};
///
/// let findings = verify(b"Jane <jd@y>\nJane Doe <jd@y> # boss\n");
/// assert_eq!((findings[0].line, findings[0].kind), (1, Kind::NoEffect { beside: 2 }));
/// assert_eq!((findings[1].line, findings[1].kind), (2, Kind::IgnoredText));
/// ```
pub fn verify(mailmap: &[u8]) -> Vec<Finding> {
    let found = sys::verify(mailmap);
    found.iter().map(|found| Finding { line: found.line, kind: kind(found) }).collect()
}

fn kind(found: &sys::Found) -> Kind {
    match found.kind {
        sys::NO_EMAIL => Kind::NoEmail,
        sys::MISSING_CLOSING_BRACKET => Kind::MissingClosingBracket,
        sys::EMPTY_EMAIL => Kind::EmptyEmail,
        sys::NOTHING_TO_MAP => Kind::NothingToMap,
        sys::UNCLOSED_SECOND => Kind::UnclosedSecond,
        sys::IGNORED_TEXT => Kind::IgnoredText,
        sys::NO_EFFECT => Kind::NoEffect { beside: found.beside },
        sys::ITSELF_MAPPED => Kind::ItselfMapped,
        sys::GIT_READS => Kind::GitReads,
        sys::BYTE_ORDER_MARK => Kind::ByteOrderMark,
        sys::COMMENT_IN_LINE => Kind::CommentInLine,
        other => Kind::Other(other),
    }
}
