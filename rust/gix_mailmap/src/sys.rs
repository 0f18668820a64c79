//! The calls of the C library that are needed here, as safe functions. `include/gix_mailmap.h` says what each call
//! does, and this is the only module with unsafe code. What it relies on:
//!
//! - A text or a buffer is passed by its address and its length. The library reads and writes no more than that, and
//!   keeps no address. Rust guarantees that what it writes overlaps with nothing else.
//! - A handle is open from the call that makes it until it is dropped. Calls that change it take `&mut`.
//!
//! A call that finds no memory ends the process.
#![allow(unsafe_code)]

use crate::texts::Named;
use crate::Entry;
use std::alloc::{handle_alloc_error, Layout};
use std::ffi::{c_char, CStr};
use std::ptr::NonNull;

// numbers of gix_mailmap_status
const OK: u32 = 0;
const TOO_SHORT: u32 = 1;
const OUT_OF_MEMORY: u32 = 2;

// numbers of gix_mailmap_kind
pub(crate) const NO_EMAIL: u32 = 1;
pub(crate) const MISSING_CLOSING_BRACKET: u32 = 2;
pub(crate) const EMPTY_EMAIL: u32 = 3;
pub(crate) const NOTHING_TO_MAP: u32 = 4;
pub(crate) const UNCLOSED_SECOND: u32 = 5;
pub(crate) const IGNORED_TEXT: u32 = 6;
pub(crate) const NO_EFFECT: u32 = 7;
pub(crate) const ITSELF_MAPPED: u32 = 8;
pub(crate) const GIT_READS: u32 = 9;
pub(crate) const BYTE_ORDER_MARK: u32 = 10;
pub(crate) const COMMENT_IN_LINE: u32 = 11;

/// `gix_mailmap_field`
#[repr(C)]
#[derive(Clone, Copy, Default)]
pub(crate) struct Field {
    pub(crate) len: usize,
    pub(crate) is_given: bool,
}

/// `gix_mailmap_listed`
#[repr(C)]
#[derive(Clone, Copy, Default)]
pub(crate) struct Listed {
    start: usize,
    new_name: Field,
    new_email: Field,
    old_name: Field,
    old_email: Field,
}

/// `gix_mailmap_finding`
#[repr(C)]
#[derive(Clone, Copy, Default)]
pub(crate) struct Found {
    pub(crate) line: usize,
    pub(crate) kind: u32,
    pub(crate) beside: usize,
}

/// A line of one of several mailmaps.
#[repr(C)]
#[derive(Clone, Copy, PartialEq, Eq, Debug, Default)]
pub struct Position {
    /// The index of the mailmap, counted from 0.
    pub mailmap: usize,
    /// The number of the line there, counted from 1.
    pub line: usize,
}

/// `gix_mailmap_place`
#[repr(C)]
#[derive(Clone, Copy, Default)]
pub(crate) struct Place {
    start: usize,
    len: usize,
}

impl Place {
    /// The text that is there.
    pub(crate) fn within<'a>(&self, text: &'a [u8]) -> &'a [u8] {
        &text[self.start..self.start + self.len]
    }
}

/// `gix_mailmap_cursor`
#[repr(C)]
#[derive(Clone, Copy, Default, Debug)]
pub(crate) struct Cursor {
    start: usize,
    lines: usize,
}

/// `gix_mailmap_parsed`
#[repr(C)]
#[derive(Clone, Copy, Default)]
pub(crate) struct Parsed {
    pub(crate) line: usize,
    pub(crate) kind: u32,
    pub(crate) text: Place,
    pub(crate) new_name: Place,
    pub(crate) new_email: Place,
    pub(crate) old_name: Place,
    pub(crate) old_email: Place,
}

/// `gix_mailmap_named`
#[repr(C)]
struct RawNamed {
    name: *const u8,
    name_len: usize,
    text: *const u8,
    text_len: usize,
}

// the sizes that c/layout.h has
const _: () = {
    use std::mem::size_of;
    assert!(size_of::<Field>() == 16 && size_of::<Listed>() == 72 && size_of::<Found>() == 24);
    assert!(size_of::<Position>() == 16 && size_of::<RawNamed>() == 32);
    assert!(size_of::<Place>() == 16 && size_of::<Cursor>() == 16 && size_of::<Parsed>() == 96);
};

#[repr(C)]
struct RawMap {
    _private: [u8; 0],
}

#[repr(C)]
struct RawStream {
    _private: [u8; 0],
}

extern "C" {
    fn gix_mailmap_version() -> *const c_char;
    fn gix_mailmap_open(map: *mut *mut RawMap, text: *const u8, text_len: usize) -> u32;
    fn gix_mailmap_copy(copy: *mut *mut RawMap, map: *const RawMap) -> u32;
    fn gix_mailmap_close(map: *mut RawMap);
    fn gix_mailmap_add(map: *mut RawMap, text: *const u8, text_len: usize) -> u32;
    fn gix_mailmap_add_entry(
        map: *mut RawMap,
        new_name: *const u8,
        new_name_len: usize,
        new_email: *const u8,
        new_email_len: usize,
        old_name: *const u8,
        old_name_len: usize,
        old_email: *const u8,
        old_email_len: usize,
    ) -> u32;
    fn gix_mailmap_lookup(
        map: *const RawMap,
        name: *const u8,
        name_len: usize,
        email: *const u8,
        email_len: usize,
        name_out: *mut u8,
        name_out_len: usize,
        new_name: *mut Field,
        email_out: *mut u8,
        email_out_len: usize,
        new_email: *mut Field,
    ) -> u32;
    fn gix_mailmap_len(map: *const RawMap, entries_len: *mut usize, texts_len: *mut usize);
    fn gix_mailmap_list(
        map: *const RawMap,
        entries: *mut Listed,
        entries_len: usize,
        texts: *mut u8,
        texts_len: usize,
    ) -> u32;
    fn gix_mailmap_write(map: *const RawMap, out: *mut u8, out_len: usize, needed: *mut usize) -> u32;
    fn gix_mailmap_check(
        mailmap: *const u8,
        mailmap_len: usize,
        contacts: *const u8,
        contacts_len: usize,
        out: *mut u8,
        out_len: usize,
        needed: *mut usize,
    ) -> u32;
    fn gix_mailmap_compact(
        mailmap: *const u8,
        mailmap_len: usize,
        out: *mut u8,
        out_len: usize,
        needed: *mut usize,
    ) -> u32;
    fn gix_mailmap_prune(
        mailmap: *const u8,
        mailmap_len: usize,
        out: *mut u8,
        out_len: usize,
        needed: *mut usize,
    ) -> u32;
    fn gix_mailmap_verify(
        mailmap: *const u8,
        mailmap_len: usize,
        out: *mut Found,
        out_len: usize,
        needed: *mut usize,
    ) -> u32;
    fn gix_mailmap_report(
        mailmaps: *const RawNamed,
        count: usize,
        out: *mut u8,
        out_len: usize,
        needed: *mut usize,
    ) -> u32;
    fn gix_mailmap_explain(
        mailmaps: *const RawNamed,
        count: usize,
        contacts: *const u8,
        contacts_len: usize,
        out: *mut u8,
        out_len: usize,
        needed: *mut usize,
    ) -> u32;
    fn gix_mailmap_unneeded(
        mailmaps: *const RawNamed,
        count: usize,
        contacts: *const u8,
        contacts_len: usize,
        out: *mut Position,
        out_len: usize,
        needed: *mut usize,
    ) -> u32;
    fn gix_mailmap_suggest(
        mailmaps: *const RawNamed,
        count: usize,
        contacts: *const u8,
        contacts_len: usize,
        out: *mut u8,
        out_len: usize,
        needed: *mut usize,
    ) -> u32;
    fn gix_mailmap_parse(mailmap: *const u8, mailmap_len: usize, cursor: *mut Cursor, parsed: *mut Parsed) -> u32;
    fn gix_mailmap_stream_open(stream: *mut *mut RawStream, mailmap: *const u8, mailmap_len: usize) -> u32;
    fn gix_mailmap_stream_close(stream: *mut RawStream);
    fn gix_mailmap_stream_push(stream: *mut RawStream, part: *const u8, part_len: usize, taken: *mut usize) -> u32;
    fn gix_mailmap_stream_finish(stream: *mut RawStream) -> u32;
    fn gix_mailmap_stream_read(stream: *mut RawStream, out: *mut u8, out_len: usize) -> usize;
}

/// Ends the process if a call found no memory. How much it wanted isn't known.
#[inline]
fn checked(status: u32) -> u32 {
    if status == OUT_OF_MEMORY {
        handle_alloc_error(Layout::new::<u8>());
    }
    status
}

/// What a call writes that gets a buffer, its length and where to say which length is needed. The call is made again
/// with that length if the first guess is too short.
fn written<T: Copy + Default>(guess: usize, call: impl Fn(*mut T, usize, *mut usize) -> u32) -> Result<Vec<T>, usize> {
    let (mut out, mut needed) = (vec![T::default(); guess], 0);
    let mut status = checked(call(out.as_mut_ptr(), out.len(), &mut needed));
    if status == TOO_SHORT {
        out.resize(needed, T::default());
        status = checked(call(out.as_mut_ptr(), out.len(), &mut needed));
    }
    out.truncate(needed);
    if status == OK {
        Ok(out)
    } else {
        Err(needed)
    }
}

pub(crate) fn version() -> &'static str {
    // SAFETY: the library returns a constant text that ends with a NUL.
    let text = unsafe { CStr::from_ptr(gix_mailmap_version()) };
    text.to_str().unwrap_or("")
}

/// A mailmap that is open.
pub(crate) struct Map(NonNull<RawMap>);

// SAFETY: a mailmap may be opened, used and closed by different threads.
unsafe impl Send for Map {}
// SAFETY: any number of threads may read a mailmap at a time, and calls that change it take `&mut`.
unsafe impl Sync for Map {}

impl Drop for Map {
    fn drop(&mut self) {
        // SAFETY: it is open, and nothing uses it any more.
        unsafe { gix_mailmap_close(self.0.as_ptr()) }
    }
}

/// The lengths of an answer, whether the mailmap gives it, and whether it fits the buffers.
pub(crate) struct Answer {
    pub(crate) fits: bool,
    pub(crate) name: Field,
    pub(crate) email: Field,
}

impl Map {
    pub(crate) fn open(text: &[u8]) -> Self {
        let mut map = std::ptr::null_mut();
        // SAFETY: `map` may be written.
        checked(unsafe { gix_mailmap_open(&mut map, text.as_ptr(), text.len()) });
        Map(NonNull::new(map).unwrap_or_else(|| handle_alloc_error(Layout::new::<u8>())))
    }

    pub(crate) fn copy(&self) -> Self {
        let mut copy = std::ptr::null_mut();
        // SAFETY: `copy` may be written, and the mailmap is open, and nothing changes it meanwhile.
        checked(unsafe { gix_mailmap_copy(&mut copy, self.0.as_ptr()) });
        Map(NonNull::new(copy).unwrap_or_else(|| handle_alloc_error(Layout::new::<u8>())))
    }

    pub(crate) fn add(&mut self, text: &[u8]) {
        // SAFETY: the mailmap is open, and nothing else uses it.
        checked(unsafe { gix_mailmap_add(self.0.as_ptr(), text.as_ptr(), text.len()) });
    }

    /// Adds an entry, unless its texts make none.
    pub(crate) fn add_entry(&mut self, entry: &Entry<'_>) {
        let new_name = entry.new_name.unwrap_or(b"");
        let new_email = entry.new_email.unwrap_or(b"");
        let old_name = entry.old_name.unwrap_or(b"");
        let old_email = entry.old_email;
        // SAFETY: the mailmap is open, and nothing else uses it.
        checked(unsafe {
            gix_mailmap_add_entry(
                self.0.as_ptr(),
                new_name.as_ptr(),
                new_name.len(),
                new_email.as_ptr(),
                new_email.len(),
                old_name.as_ptr(),
                old_name.len(),
                old_email.as_ptr(),
                old_email.len(),
            )
        });
    }

    #[inline]
    pub(crate) fn lookup(&self, name: &[u8], email: &[u8], name_out: &mut [u8], email_out: &mut [u8]) -> Answer {
        let (mut new_name, mut new_email) = (Field::default(), Field::default());
        // SAFETY: the mailmap is open, and nothing changes it meanwhile. The lengths are written with both statuses.
        let status = unsafe {
            gix_mailmap_lookup(
                self.0.as_ptr(),
                name.as_ptr(),
                name.len(),
                email.as_ptr(),
                email.len(),
                name_out.as_mut_ptr(),
                name_out.len(),
                &mut new_name,
                email_out.as_mut_ptr(),
                email_out.len(),
                &mut new_email,
            )
        };
        Answer { fits: status == OK, name: new_name, email: new_email }
    }

    /// How many entries there are, and how many bytes their texts have.
    pub(crate) fn len(&self) -> (usize, usize) {
        let (mut entries, mut texts) = (0, 0);
        // SAFETY: the mailmap is open, and nothing changes it meanwhile.
        unsafe { gix_mailmap_len(self.0.as_ptr(), &mut entries, &mut texts) };
        (entries, texts)
    }

    /// Lists all entries. Nothing is written unless both buffers are as long as [`Map::len`] says.
    pub(crate) fn list(&self, entries: &mut [Listed], texts: &mut [u8]) {
        // SAFETY: the mailmap is open, and nothing changes it meanwhile.
        checked(unsafe {
            gix_mailmap_list(self.0.as_ptr(), entries.as_mut_ptr(), entries.len(), texts.as_mut_ptr(), texts.len())
        });
    }

    /// The mailmap as a text, or the index of an entry that can't be written.
    pub(crate) fn write(&self) -> Result<Vec<u8>, usize> {
        let (entries, texts) = self.len();
        // a line has at most eight bytes beside its texts
        // SAFETY: the mailmap is open, and nothing changes it meanwhile.
        written(texts + 8 * entries, |out, len, needed| unsafe { gix_mailmap_write(self.0.as_ptr(), out, len, needed) })
    }
}

impl Listed {
    /// The entry, whose texts follow one another.
    pub(crate) fn entry<'a>(&self, texts: &'a [u8]) -> Entry<'a> {
        let mut rest = &texts[self.start..];
        let mut text = |field: Field| {
            let (text, after) = rest.split_at(field.len);
            rest = after;
            field.is_given.then_some(text)
        };
        Entry {
            new_name: text(self.new_name),
            new_email: text(self.new_email),
            old_name: text(self.old_name),
            old_email: text(self.old_email).unwrap_or(b""),
        }
    }
}

/// A stream of contacts that is open.
pub(crate) struct Stream(NonNull<RawStream>);

// SAFETY: a stream may be opened, used and closed by different threads.
unsafe impl Send for Stream {}

impl Drop for Stream {
    fn drop(&mut self) {
        // SAFETY: it is open, and nothing uses it any more.
        unsafe { gix_mailmap_stream_close(self.0.as_ptr()) }
    }
}

impl Stream {
    pub(crate) fn open(mailmap: &[u8]) -> Self {
        let mut stream = std::ptr::null_mut();
        // SAFETY: `stream` may be written.
        checked(unsafe { gix_mailmap_stream_open(&mut stream, mailmap.as_ptr(), mailmap.len()) });
        Stream(NonNull::new(stream).unwrap_or_else(|| handle_alloc_error(Layout::new::<u8>())))
    }

    pub(crate) fn push(&mut self, part: &[u8]) -> usize {
        let mut taken = 0;
        // SAFETY: the stream is open, and nothing else uses it.
        checked(unsafe { gix_mailmap_stream_push(self.0.as_ptr(), part.as_ptr(), part.len(), &mut taken) });
        taken
    }

    pub(crate) fn finish(&mut self) {
        // SAFETY: the stream is open, and nothing else uses it.
        checked(unsafe { gix_mailmap_stream_finish(self.0.as_ptr()) });
    }

    pub(crate) fn read(&mut self, out: &mut [u8]) -> usize {
        // SAFETY: the stream is open, and nothing else uses it.
        unsafe { gix_mailmap_stream_read(self.0.as_ptr(), out.as_mut_ptr(), out.len()) }
    }
}

/// The next line that gives an entry or has a fault, if one is left.
#[inline]
pub(crate) fn parse(mailmap: &[u8], cursor: &mut Cursor) -> Option<Parsed> {
    let mut parsed = Parsed::default();
    // SAFETY: the call may run at any time.
    let status = unsafe { gix_mailmap_parse(mailmap.as_ptr(), mailmap.len(), cursor, &mut parsed) };
    (status == OK).then_some(parsed)
}

// Calls with neither a mailmap nor a stream. They may run at any time, and their only errors are a buffer that is too
// short and that there is no memory. The first guess for a buffer is mostly enough, so that the work is done once.

pub(crate) fn check(mailmap: &[u8], contacts: &[u8]) -> Vec<u8> {
    // SAFETY: as above
    let out = written(contacts.len() + contacts.len() / 2 + 64, |out, len, needed| unsafe {
        gix_mailmap_check(mailmap.as_ptr(), mailmap.len(), contacts.as_ptr(), contacts.len(), out, len, needed)
    });
    out.unwrap_or_default()
}

pub(crate) fn compact(mailmap: &[u8]) -> Vec<u8> {
    // SAFETY: as above
    let out = written(mailmap.len() + mailmap.len() / 8 + 64, |out, len, needed| unsafe {
        gix_mailmap_compact(mailmap.as_ptr(), mailmap.len(), out, len, needed)
    });
    out.unwrap_or_default()
}

pub(crate) fn prune(mailmap: &[u8]) -> Vec<u8> {
    // SAFETY: as above
    let out = written(mailmap.len(), |out, len, needed| unsafe {
        gix_mailmap_prune(mailmap.as_ptr(), mailmap.len(), out, len, needed)
    });
    out.unwrap_or_default()
}

pub(crate) fn verify(mailmap: &[u8]) -> Vec<Found> {
    // SAFETY: as above
    let out = written(64, |out, len, needed| unsafe {
        gix_mailmap_verify(mailmap.as_ptr(), mailmap.len(), out, len, needed)
    });
    out.unwrap_or_default()
}

pub(crate) fn report(mailmaps: &[Named<'_>]) -> Vec<u8> {
    let named = raw(mailmaps);
    // SAFETY: as above
    let out =
        written(4096, |out, len, needed| unsafe { gix_mailmap_report(named.as_ptr(), named.len(), out, len, needed) });
    out.unwrap_or_default()
}

pub(crate) fn explain(mailmaps: &[Named<'_>], contacts: &[u8]) -> Vec<u8> {
    let named = raw(mailmaps);
    // SAFETY: as above
    let out = written(3 * contacts.len() + 64, |out, len, needed| unsafe {
        gix_mailmap_explain(named.as_ptr(), named.len(), contacts.as_ptr(), contacts.len(), out, len, needed)
    });
    out.unwrap_or_default()
}

pub(crate) fn unneeded(mailmaps: &[Named<'_>], contacts: &[u8]) -> Vec<Position> {
    let named = raw(mailmaps);
    // SAFETY: as above
    let out = written(256, |out, len, needed| unsafe {
        gix_mailmap_unneeded(named.as_ptr(), named.len(), contacts.as_ptr(), contacts.len(), out, len, needed)
    });
    out.unwrap_or_default()
}

pub(crate) fn suggest(mailmaps: &[Named<'_>], contacts: &[u8]) -> Vec<u8> {
    let named = raw(mailmaps);
    // SAFETY: as above
    let out = written(65536, |out, len, needed| unsafe {
        gix_mailmap_suggest(named.as_ptr(), named.len(), contacts.as_ptr(), contacts.len(), out, len, needed)
    });
    out.unwrap_or_default()
}

fn raw(mailmaps: &[Named<'_>]) -> Vec<RawNamed> {
    let raw = |mailmap: &Named<'_>| RawNamed {
        name: mailmap.name.as_ptr(),
        name_len: mailmap.name.len(),
        text: mailmap.text.as_ptr(),
        text_len: mailmap.text.len(),
    };
    mailmaps.iter().map(raw).collect()
}
