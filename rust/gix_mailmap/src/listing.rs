//! The entries of a mailmap in one buffer.
use crate::sys::{Listed, Map};
use crate::Entry;

/// All entries of a mailmap, with their texts.
pub(crate) struct Listing {
    entries: Vec<Listed>,
    texts: Vec<u8>,
}

impl Listing {
    pub(crate) fn of(map: &Map) -> Self {
        let (entries, texts) = map.len();
        let mut listing = Listing { entries: vec![Listed::default(); entries], texts: vec![0; texts] };
        map.list(&mut listing.entries, &mut listing.texts);
        listing
    }

    pub(crate) fn iter(&self) -> impl ExactSizeIterator<Item = Entry<'_>> {
        self.entries.iter().map(|listed| listed.entry(&self.texts))
    }
}
