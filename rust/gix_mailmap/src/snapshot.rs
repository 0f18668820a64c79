//! Merged mailmaps, and what they answer.
use crate::actor::{self, SignatureRef};
use crate::listing::Listing;
use crate::sys::Map;
use crate::{line, Entry};
use std::borrow::Cow;
use std::fmt;
use std::hash::{Hash, Hasher};
use std::sync::OnceLock;

/// Merged mailmaps: one entry for each old email with or without an old name. The case of ASCII letters is ignored.
///
/// ```
/// use gix_mailmap::{actor::SignatureRef, Snapshot};
///
/// let snapshot = Snapshot::from_bytes(b"Jane Doe <jane@x> <jd@y>");
/// let mut buffer = Vec::new();
/// let contact = SignatureRef { name: b"jd", email: b"JD@y", time: "" };
/// let resolved = snapshot.try_resolve_ref(contact, &mut buffer).unwrap();
/// assert_eq!(resolved.name, Some(&b"Jane Doe"[..]));
/// assert_eq!(resolved.email, Some(&b"jane@x"[..]));
/// ```
///
/// Threads may share a snapshot: lookups by several threads don't wait for one another.
pub struct Snapshot {
    map: Map,
    /// made when the entries are first listed
    listing: OnceLock<Listing>,
}

/// A signature like [`actor::Signature`], but with texts that are borrowed where the mailmap doesn't change them.
#[derive(Default, PartialEq, Eq, Debug, Hash, Ord, PartialOrd, Clone)]
pub struct Signature<'a> {
    /// The possibly mapped name.
    pub name: Cow<'a, [u8]>,
    /// The possibly mapped email.
    pub email: Cow<'a, [u8]>,
    /// The time of the signature, as it was.
    pub time: &'a str,
}

/// A name, an email or both that the mailmap gives. They are in the buffer that was handed in.
#[derive(Clone, Copy, PartialEq, Eq, Debug)]
pub struct ResolvedSignature<'a> {
    /// The mapped name.
    pub name: Option<&'a [u8]>,
    /// The mapped email.
    pub email: Option<&'a [u8]>,
}

/// An entry can't be written as a line. Only entries that were made by a constructor can be so.
#[derive(Clone, Copy, PartialEq, Eq, Debug)]
pub struct Unwritable {
    /// The index of the first such entry in [`Snapshot::entries`].
    pub index: usize,
}

impl Snapshot {
    /// A snapshot of the entries of a mailmap. Lines that can't be read are left out.
    pub fn from_bytes(buf: &[u8]) -> Self {
        Snapshot { map: Map::open(buf), listing: OnceLock::new() }
    }

    /// A snapshot of entries, such as [`parse_ignore_errors()`](crate::parse_ignore_errors()) gives.
    pub fn new<'a>(entries: impl IntoIterator<Item = Entry<'a>>) -> Self {
        let mut snapshot = Self::default();
        snapshot.merge(entries);
        snapshot
    }

    /// Adds entries after those that are there.
    ///
    /// A later entry with an old name replaces an earlier one for the same old email and old name. A later entry
    /// without an old name replaces only what it gives. Old emails and old names keep their first spelling. An empty
    /// new name, new email or old name counts as missing. Entries with neither a new name nor a new email are ignored,
    /// and so is one with an old name and an empty new email.
    ///
    /// Entries are sorted as a batch, so hand in many at once where you can.
    pub fn merge<'a>(&mut self, entries: impl IntoIterator<Item = Entry<'a>>) -> &mut Self {
        self.listing = OnceLock::new();
        let mut lines = Vec::new();
        for entry in entries {
            if line::holds(&entry) && (entry.new_name.is_some() || entry.new_email.is_some()) {
                line::push(&entry, &mut lines);
            } else {
                self.map.add(&lines);
                lines.clear();
                self.map.add_entry(&entry);
            }
        }
        self.map.add(&lines);
        self
    }

    /// Adds the entries of a mailmap after those that are there. Lines that can't be read are left out.
    pub fn merge_bytes(&mut self, buf: &[u8]) -> &mut Self {
        self.listing = OnceLock::new();
        self.map.add(buf);
        self
    }

    /// The entries, sorted by old email and then by old name, without regard to the case of ASCII letters. An entry
    /// without an old name comes first.
    ///
    /// The first call after a change copies all entries out of the library, and the snapshot keeps the copy.
    pub fn iter(&self) -> impl ExactSizeIterator<Item = Entry<'_>> {
        self.listing.get_or_init(|| Listing::of(&self.map)).iter()
    }

    /// The entries as a list, in the order of [`Snapshot::iter`].
    pub fn entries(&self) -> Vec<Entry<'_>> {
        self.iter().collect()
    }

    /// What the mailmap gives for a name and an email, or `None` if it gives nothing.
    ///
    /// The answer is put into `buffer`, whose content is lost. It grows if an answer doesn't fit, so keep it from one
    /// call to the next: then nothing is allocated.
    ///
    /// An email that differs from that of the mailmap's first line for it only in upper and lower case is given as that
    /// line spells it.
    #[inline]
    pub fn try_resolve_ref<'b>(
        &self,
        signature: SignatureRef<'_>,
        buffer: &'b mut Vec<u8>,
    ) -> Option<ResolvedSignature<'b>> {
        let found = loop {
            let half = buffer.len() / 2;
            let (name, email) = buffer.split_at_mut(half);
            let found = self.map.lookup(signature.name, signature.email, name, email);
            if found.fits {
                break found;
            }
            grow(buffer, found.name.len.max(found.email.len));
        };
        let (name, email) = buffer.split_at(buffer.len() / 2);
        let name = found.name.is_given.then(|| &name[..found.name.len]);
        let email = found.email.is_given.then(|| &email[..found.email.len]);
        (name.is_some() || email.is_some()).then_some(ResolvedSignature { name, email })
    }

    /// The signature with what the mailmap gives, or `None` if it gives nothing.
    pub fn try_resolve(&self, signature: SignatureRef<'_>) -> Option<actor::Signature> {
        let mut buffer = Vec::new();
        let found = self.try_resolve_ref(signature, &mut buffer)?;
        Some(actor::Signature {
            name: found.name.unwrap_or(signature.name).to_owned(),
            email: found.email.unwrap_or(signature.email).to_owned(),
            time: signature.time.to_owned(),
        })
    }

    /// The signature with what the mailmap gives, or a copy of it.
    pub fn resolve(&self, signature: SignatureRef<'_>) -> actor::Signature {
        self.resolve_cow(signature).into()
    }

    /// The signature with what the mailmap gives. Only that is copied.
    pub fn resolve_cow<'a>(&self, signature: SignatureRef<'a>) -> Signature<'a> {
        let mut buffer = Vec::new();
        let found = self.try_resolve_ref(signature, &mut buffer);
        let (name, email) = found.map_or((None, None), |found| (found.name, found.email));
        Signature {
            name: name.map_or(Cow::Borrowed(signature.name), |name| Cow::Owned(name.to_owned())),
            email: email.map_or(Cow::Borrowed(signature.email), |email| Cow::Owned(email.to_owned())),
            time: signature.time,
        }
    }

    /// The snapshot as a text, of which [`Snapshot::from_bytes`] makes an equal one: a line for each entry, in the
    /// order of [`Snapshot::iter`]. Each begins with a space, so that a name such as `#1` doesn't make it a comment.
    pub fn write(&self) -> Result<Vec<u8>, Unwritable> {
        self.map.write().map_err(|index| Unwritable { index })
    }
}

/// Makes room for two texts of this length.
#[cold]
fn grow(buffer: &mut Vec<u8>, len: usize) {
    buffer.resize(2 * len.max(128), 0);
}

impl Default for Snapshot {
    fn default() -> Self {
        Self::from_bytes(b"")
    }
}

impl Clone for Snapshot {
    fn clone(&self) -> Self {
        Snapshot { map: self.map.copy(), listing: OnceLock::new() }
    }
}

/// Snapshots are equal if their entries are.
impl PartialEq for Snapshot {
    fn eq(&self, other: &Self) -> bool {
        self.iter().eq(other.iter())
    }
}

impl Eq for Snapshot {}

impl Hash for Snapshot {
    fn hash<H: Hasher>(&self, state: &mut H) {
        self.iter().len().hash(state);
        self.iter().for_each(|entry| entry.hash(state));
    }
}

impl fmt::Debug for Snapshot {
    fn fmt(&self, f: &mut fmt::Formatter<'_>) -> fmt::Result {
        f.debug_list().entries(self.iter()).finish()
    }
}

impl From<Signature<'_>> for actor::Signature {
    fn from(signature: Signature<'_>) -> Self {
        actor::Signature {
            name: signature.name.into_owned(),
            email: signature.email.into_owned(),
            time: signature.time.to_owned(),
        }
    }
}

impl<'a> From<SignatureRef<'a>> for Signature<'a> {
    fn from(signature: SignatureRef<'a>) -> Self {
        Signature { name: signature.name.into(), email: signature.email.into(), time: signature.time }
    }
}

impl fmt::Display for Unwritable {
    fn fmt(&self, f: &mut fmt::Formatter<'_>) -> fmt::Result {
        write!(f, "entry {} can't be written as a line", self.index)
    }
}

impl std::error::Error for Unwritable {}
