//! The author or committer of a commit. These take the place of the types of the crate `gix_actor`.

/// The author or committer of a commit, with its three texts as the commit has them.
///
/// From a `gix_actor::SignatureRef`, whose texts are `&BStr`:
///
/// ```text
/// SignatureRef { name: signature.name, email: signature.email, time: signature.time }
/// ```
#[derive(Clone, Copy, PartialEq, Eq, Debug, Default)]
pub struct SignatureRef<'a> {
    /// The name, as recorded.
    pub name: &'a [u8],
    /// The email, as recorded, without its brackets.
    pub email: &'a [u8],
    /// The time, as recorded, such as `1711398853 +0800`. It isn't parsed.
    pub time: &'a str,
}

/// The author or committer of a commit. It owns its texts.
#[derive(Clone, PartialEq, Eq, Debug, Default)]
pub struct Signature {
    /// The name.
    pub name: Vec<u8>,
    /// The email, without its brackets.
    pub email: Vec<u8>,
    /// The time, as in the [`SignatureRef`] that was resolved.
    pub time: String,
}
