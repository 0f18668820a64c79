//! Calls that take mailmaps as texts.
use crate::sys::{self, Position};

/// A mailmap: its name, such as that of its file, and its text.
#[derive(Clone, Copy, PartialEq, Eq, Debug)]
pub struct Named<'a> {
    /// The name. Only [`report`] and [`explain`] read it.
    pub name: &'a [u8],
    /// The text.
    pub text: &'a [u8],
}

/// An answer for each line of `contacts`, such as `Jane <jane@x>`, with a line feed after it. A line that isn't a
/// contact is its own answer. [`ContactStream`](crate::ContactStream) takes contacts in parts.
///
/// ```
/// let answers = gix_mailmap::check(b"Jane Doe <jane@x> <jd@y>", b"jd <JD@y>\nplain");
/// assert_eq!(answers, b"Jane Doe <jane@x>\nplain\n");
/// ```
pub fn check(mailmap: &[u8], contacts: &[u8]) -> Vec<u8> {
    sys::check(mailmap, contacts)
}

/// A mailmap with the same entries, sorted by old email, without comments, what can't be read and what later lines
/// override. Each line begins with a space.
///
/// ```
/// assert_eq!(gix_mailmap::compact(b"# us\nJ <j@x>\nJane <J@x>\n"), b" Jane <j@x>\n");
/// ```
pub fn compact(mailmap: &[u8]) -> Vec<u8> {
    sys::compact(mailmap)
}

/// The mailmap without the lines that have no effect. All other lines stay byte for byte. If
/// [`verify`](crate::verify()) finds [`GitReads`](crate::Kind::GitReads), git may answer differently with the result.
///
/// ```
/// assert_eq!(gix_mailmap::prune(b"# us\nJ <j@x>\nJane <j@x>\n"), b"# us\nJane <j@x>\n");
/// ```
pub fn prune(mailmap: &[u8]) -> Vec<u8> {
    sys::prune(mailmap)
}

/// What is wrong with some mailmaps, as `mailmap_verify` prints it.
///
/// ```
/// use gix_mailmap::{report, Named};
///
/// let said = report(&[Named { name: b"team", text: b"Jane <j@x> jd\n" }]);
/// assert_eq!(said, b"team:1: warning: ignored text: jd (an old name needs an email after it) [ignored-text]\n");
/// ```
pub fn report(mailmaps: &[Named<'_>]) -> Vec<u8> {
    sys::report(mailmaps)
}

/// Which lines of some mailmaps give contacts their new names and emails, as `mailmap_verify --explain` prints it.
///
/// ```
/// use gix_mailmap::{explain, Named};
///
/// let said = explain(&[Named { name: b"team", text: b"Jane <j@x>\n" }], b"jd <J@x>\n");
/// assert_eq!(said, b"jd <J@x> is Jane <j@x> by team:1\n");
/// ```
pub fn explain(mailmaps: &[Named<'_>], contacts: &[u8]) -> Vec<u8> {
    sys::explain(mailmaps, contacts)
}

/// The lines of some mailmaps that have an effect and that no contact needs, in their order.
///
/// ```
/// use gix_mailmap::{unneeded, Named, Position};
///
/// let lines = unneeded(&[Named { name: b"", text: b"Jane <j@x>\nJoe <joe@x>\n" }], b"jd <j@x>\n");
/// assert_eq!(lines, [Position { mailmap: 0, line: 2 }]);
/// ```
pub fn unneeded(mailmaps: &[Named<'_>], contacts: &[u8]) -> Vec<Position> {
    sys::unneeded(mailmaps, contacts)
}

/// The lines that some mailmaps lack for contacts, as `mailmap_verify --suggest` prints them. The text is a mailmap, to
/// be appended to the last one: if that isn't empty and doesn't end with a line feed, the text, if there is any, begins
/// with one.
///
/// ```
/// let said = gix_mailmap::suggest(&[], b"Jane Doe <jane@x>\nJane Doe <jane@x>\njane <jane@x>\n");
/// assert_eq!(said, b"# 2 Jane Doe <jane@x>\n# 1 jane <jane@x>\nJane Doe <jane@x>\n\n");
/// ```
pub fn suggest(mailmaps: &[Named<'_>], contacts: &[u8]) -> Vec<u8> {
    sys::suggest(mailmaps, contacts)
}
