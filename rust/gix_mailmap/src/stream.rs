use crate::sys::Stream;
use std::fmt;

/// Maps contacts that come in parts of any length, as [`check`](crate::check()) does. A part may end in the middle of a
/// line.
///
/// ```
/// let mut stream = gix_mailmap::ContactStream::new(b"Jane Doe <jane@x> <jd@y>");
/// let (mut out, mut answers) = ([0; 4096], Vec::new());
/// for mut part in [&b"jd <J"[..], b"D@y>\nplain"] {
///     while !part.is_empty() {
///         part = &part[stream.push(part)..];
///         while let count @ 1.. = stream.read(&mut out) {
///             answers.extend_from_slice(&out[..count]);
///         }
///     }
/// }
/// stream.finish();
/// while let count @ 1.. = stream.read(&mut out) {
///     answers.extend_from_slice(&out[..count]);
/// }
/// assert_eq!(answers, b"Jane Doe <jane@x>\nplain\n");
/// ```
pub struct ContactStream(Stream);

impl ContactStream {
    /// A stream of contacts that this mailmap maps. It takes some 1.1 MiB beside the mailmap and the answers that wait.
    pub fn new(mailmap: &[u8]) -> Self {
        ContactStream(Stream::open(mailmap))
    }

    /// Takes bytes from the beginning of a part, answers each line that ends in them, and returns how many bytes these
    /// are: at least one, unless the part is empty. They are fewer than the part has if 64 KiB of answers wait to be
    /// read: read the answers, and push the rest.
    pub fn push(&mut self, part: &[u8]) -> usize {
        self.0.push(part)
    }

    /// Answers the last line, if no line feed ended it. What is pushed after that begins a new line.
    pub fn finish(&mut self) {
        self.0.finish()
    }

    /// Copies the answers that wait to the beginning of `out`, as many bytes as fit, and returns how many bytes these
    /// are: 0 if no answers wait.
    pub fn read(&mut self, out: &mut [u8]) -> usize {
        self.0.read(out)
    }
}

impl fmt::Debug for ContactStream {
    fn fmt(&self, f: &mut fmt::Formatter<'_>) -> fmt::Result {
        f.write_str("ContactStream")
    }
}
