/// An entry of a mailmap: a new name, a new email or both, for an old email, or for an old name with that email.
///
/// Typically made by [`parse()`](crate::parse()).
#[derive(PartialEq, Eq, Debug, Hash, Ord, PartialOrd, Clone, Copy, Default)]
pub struct Entry<'a> {
    pub(crate) new_name: Option<&'a [u8]>,
    pub(crate) new_email: Option<&'a [u8]>,
    pub(crate) old_name: Option<&'a [u8]>,
    pub(crate) old_email: &'a [u8],
}

/// Access
impl<'a> Entry<'a> {
    /// The name to map to.
    pub fn new_name(&self) -> Option<&'a [u8]> {
        self.new_name
    }

    /// The email to map to.
    pub fn new_email(&self) -> Option<&'a [u8]> {
        self.new_email
    }

    /// The name to look for and replace.
    pub fn old_name(&self) -> Option<&'a [u8]> {
        self.old_name
    }

    /// The email to look for and replace.
    pub fn old_email(&self) -> &'a [u8] {
        self.old_email
    }
}

/// Constructors indicating what kind of mapping is created.
///
/// Only these combinations of values are valid. Texts are anything with bytes, such as `"Jane"`, `b"Jane"` and a
/// `&BStr`, and are taken as they are.
///
/// ```
/// let entry = gix_mailmap::Entry::change_name_by_email("Jane Doe", "jane@x");
/// assert_eq!(entry.new_name(), Some(&b"Jane Doe"[..]));
/// assert_eq!(entry.old_email(), b"jane@x");
/// ```
impl<'a> Entry<'a> {
    /// An entry that changes the name by an email.
    pub fn change_name_by_email(
        proper_name: &'a (impl AsRef<[u8]> + ?Sized),
        commit_email: &'a (impl AsRef<[u8]> + ?Sized),
    ) -> Self {
        Entry { new_name: Some(proper_name.as_ref()), old_email: commit_email.as_ref(), ..Default::default() }
    }

    /// An entry that changes the email by an email.
    pub fn change_email_by_email(
        proper_email: &'a (impl AsRef<[u8]> + ?Sized),
        commit_email: &'a (impl AsRef<[u8]> + ?Sized),
    ) -> Self {
        Entry { new_email: Some(proper_email.as_ref()), old_email: commit_email.as_ref(), ..Default::default() }
    }

    /// An entry that changes the email by a name and email.
    pub fn change_email_by_name_and_email(
        proper_email: &'a (impl AsRef<[u8]> + ?Sized),
        commit_name: &'a (impl AsRef<[u8]> + ?Sized),
        commit_email: &'a (impl AsRef<[u8]> + ?Sized),
    ) -> Self {
        Entry {
            new_email: Some(proper_email.as_ref()),
            old_name: Some(commit_name.as_ref()),
            old_email: commit_email.as_ref(),
            ..Default::default()
        }
    }

    /// An entry that changes a name and the email by an email.
    pub fn change_name_and_email_by_email(
        proper_name: &'a (impl AsRef<[u8]> + ?Sized),
        proper_email: &'a (impl AsRef<[u8]> + ?Sized),
        commit_email: &'a (impl AsRef<[u8]> + ?Sized),
    ) -> Self {
        Entry {
            new_name: Some(proper_name.as_ref()),
            new_email: Some(proper_email.as_ref()),
            old_email: commit_email.as_ref(),
            ..Default::default()
        }
    }

    /// An entry that changes a name and email by a name and email.
    pub fn change_name_and_email_by_name_and_email(
        proper_name: &'a (impl AsRef<[u8]> + ?Sized),
        proper_email: &'a (impl AsRef<[u8]> + ?Sized),
        commit_name: &'a (impl AsRef<[u8]> + ?Sized),
        commit_email: &'a (impl AsRef<[u8]> + ?Sized),
    ) -> Self {
        Entry {
            new_name: Some(proper_name.as_ref()),
            new_email: Some(proper_email.as_ref()),
            old_name: Some(commit_name.as_ref()),
            old_email: commit_email.as_ref(),
        }
    }
}
