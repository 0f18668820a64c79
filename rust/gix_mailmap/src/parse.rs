//! Reading a mailmap line by line.
use crate::sys::{self, Cursor, Parsed};
use crate::Entry;
use std::fmt;

/// An iterator over the lines of a mailmap, which [`parse()`](crate::parse()) makes.
#[derive(Clone, Debug)]
pub struct Lines<'a> {
    text: &'a [u8],
    cursor: Cursor,
}

/// What is wrong with a line. It borrows from the buffer that is parsed.
///
/// `line` is the number of the line, counted from 1, and `input` the line without the white space around it.
#[derive(Clone, Copy, PartialEq, Eq, Debug, Hash)]
#[allow(missing_docs)]
pub enum Error<'a> {
    /// There is no `<`.
    NoEmail { line: usize, input: &'a [u8] },
    /// The first `<` has no `>` after it.
    MissingClosingBracket { line: usize, input: &'a [u8] },
    /// The first email is empty or white space.
    EmptyEmail { line: usize, input: &'a [u8] },
    /// There is only an email.
    NothingToMap { line: usize, input: &'a [u8] },
}

impl<'a> Lines<'a> {
    pub(crate) fn new(text: &'a [u8]) -> Self {
        Lines { text, cursor: Cursor::default() }
    }
}

impl<'a> Iterator for Lines<'a> {
    type Item = Result<Entry<'a>, Error<'a>>;

    fn next(&mut self) -> Option<Self::Item> {
        let parsed = sys::parse(self.text, &mut self.cursor)?;
        let (line, input) = (parsed.line, parsed.text.within(self.text));
        Some(match parsed.kind {
            0 => Ok(entry_of(self.text, &parsed)),
            sys::NO_EMAIL => Err(Error::NoEmail { line, input }),
            sys::MISSING_CLOSING_BRACKET => Err(Error::MissingClosingBracket { line, input }),
            sys::EMPTY_EMAIL => Err(Error::EmptyEmail { line, input }),
            _ => Err(Error::NothingToMap { line, input }),
        })
    }
}

/// The entry of a line. All of its texts but the old email are missing if they are empty.
fn entry_of<'a>(text: &'a [u8], parsed: &Parsed) -> Entry<'a> {
    let given = |place: sys::Place| Some(place.within(text)).filter(|text| !text.is_empty());
    Entry {
        new_name: given(parsed.new_name),
        new_email: given(parsed.new_email),
        old_name: given(parsed.old_name),
        old_email: parsed.old_email.within(text),
    }
}

impl<'a> Error<'a> {
    /// The number of the line, counted from 1.
    pub fn line(&self) -> usize {
        self.parts().0
    }

    /// The line, without the white space around it.
    pub fn input(&self) -> &'a [u8] {
        self.parts().1
    }

    fn parts(&self) -> (usize, &'a [u8]) {
        match *self {
            Error::NoEmail { line, input }
            | Error::MissingClosingBracket { line, input }
            | Error::EmptyEmail { line, input }
            | Error::NothingToMap { line, input } => (line, input),
        }
    }
}

impl fmt::Display for Error<'_> {
    fn fmt(&self, f: &mut fmt::Formatter<'_>) -> fmt::Result {
        match self {
            Error::NoEmail { line, .. } => write!(f, "Line {line} does not contain an email"),
            Error::MissingClosingBracket { line, .. } => write!(f, "{line}: Missing closing bracket '>' in email"),
            Error::EmptyEmail { line, .. } => write!(f, "{line}: Email must not be empty"),
            Error::NothingToMap { line, .. } => {
                write!(f, "{line}: Emails without a name or email to map to are invalid")
            }
        }
    }
}

impl std::error::Error for Error<'_> {}
