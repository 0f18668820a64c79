//! Entries as lines. A batch of entries is handed to the library as a text, because that sorts it once. The few entries
//! that no line can hold are added one by one.
use crate::Entry;

/// Whether the line that [`push`] writes is read as this entry again. If that is in doubt, the answer is no.
pub(crate) fn holds(entry: &Entry<'_>) -> bool {
    let new_name = entry.new_name.map_or(true, is_name);
    let new_email = entry.new_email.map_or(true, |email| is_email(email) && !email.is_empty());
    let old_name = entry.old_name.map_or(true, is_name) && (entry.old_name.is_none() || entry.new_email.is_some());
    // the first email of a line must not be empty
    let old_email = is_email(entry.old_email) && (entry.new_email.is_some() || !entry.old_email.is_empty());
    new_name && new_email && old_name && old_email
}

/// Appends an entry as a line. A space comes first, so that a name such as `#1` doesn't begin a comment.
pub(crate) fn push(entry: &Entry<'_>, text: &mut Vec<u8>) {
    let fields = [
        (entry.new_name, &b" "[..], &b""[..]),
        (entry.new_email, b" <", b">"),
        (entry.old_name, b" ", b""),
        (Some(entry.old_email), b" <", b">\n"),
    ];
    for (field, before, after) in fields {
        if let Some(field) = field {
            text.extend_from_slice(before);
            text.extend_from_slice(field);
            text.extend_from_slice(after);
        }
    }
}

fn is_name(text: &[u8]) -> bool {
    !text.is_empty() && is_trimmed(text) && !text.iter().any(|byte| matches!(byte, b'<' | b'\n'))
}

fn is_email(text: &[u8]) -> bool {
    is_trimmed(text) && !text.iter().any(|byte| matches!(byte, b'>' | b'\n'))
}

fn is_trimmed(text: &[u8]) -> bool {
    trimmed(text).len() == text.len()
}

/// A text without the white space of Unicode around it.
pub(crate) fn trimmed(mut text: &[u8]) -> &[u8] {
    // no white space takes more than three bytes
    let white_first = |text: &[u8]| (1..=3).find(|&len| text.get(..len).is_some_and(is_white));
    let white_last = |text: &[u8]| (1..=3).find(|&len| text.len() >= len && is_white(&text[text.len() - len..]));
    while let Some(len) = white_first(text) {
        text = &text[len..];
    }
    while let Some(len) = white_last(text) {
        text = &text[..text.len() - len];
    }
    text
}

/// Whether the bytes are one character, and white space.
fn is_white(bytes: &[u8]) -> bool {
    let mut characters = std::str::from_utf8(bytes).unwrap_or("").chars();
    characters.next().is_some_and(char::is_whitespace) && characters.next().is_none()
}
