//! [Parse][parse()] `.mailmap` files as used in git repositories, and remap names and emails by a [`Snapshot`].
//!
//! ```
//! use gix_mailmap::actor::SignatureRef;
//!
//! let input = b"
//! Joe R. Developer <joe@example.com> <bugs@example.com>
//! Jane Doe <jane@example.com> Jane <bugs@example.com>
//! ";
//!
//! let parsed = gix_mailmap::parse(input)
//!     .collect::<Result<Vec<_>, _>>()
//!     .unwrap();
//! assert_eq!(parsed.len(), 2);
//!
//! let snapshot = gix_mailmap::Snapshot::new(parsed);
//! let resolved = snapshot.resolve(SignatureRef {
//!     name: b"Jane",
//!     email: b"bugs@example.com",
//!     time: "1711398853 +0800",
//! });
//!
//! assert_eq!(resolved.name, b"Jane Doe");
//! assert_eq!(resolved.email, b"jane@example.com");
//! ```
//!
//! The names are those of the crate `gix-mailmap`. Texts are bytes, which need not be UTF-8. The work is done by a
//! library whose functions are proved to do what their contracts say; this crate around it is tested only.
//!
//! A call that finds no memory ends the process, as a `Vec` does.
#![deny(unsafe_code, missing_docs)]

pub mod actor;
mod entry;
mod findings;
mod line;
mod listing;
pub mod parse;
pub mod snapshot;
mod stream;
mod sys;
mod texts;

pub use entry::Entry;
pub use findings::{verify, Finding, Kind};
pub use snapshot::Snapshot;
pub use stream::ContactStream;
pub use sys::Position;
pub use texts::{check, compact, explain, prune, report, suggest, unneeded, Named};

/// Parses a mailmap line by line. Each item is the entry of a line, or what is wrong with it; comments and blank lines
/// have none.
///
/// Each line is read when its item is requested.
///
/// ```
/// let items: Vec<_> = gix_mailmap::parse(b"# us\nJane <jane@x>\nplain\n").collect();
/// assert_eq!(items[0].unwrap().new_name(), Some(&b"Jane"[..]));
/// assert_eq!(items[1].unwrap_err().to_string(), "Line 3 does not contain an email");
/// ```
pub fn parse(buf: &[u8]) -> parse::Lines<'_> {
    parse::Lines::new(buf)
}

/// Like [`parse()`], but skips all lines that can't be read.
pub fn parse_ignore_errors(buf: &[u8]) -> impl Iterator<Item = Entry<'_>> {
    parse(buf).filter_map(Result::ok)
}

/// The version of the library behind this crate, such as `0.1.0`.
pub fn version() -> &'static str {
    sys::version()
}
