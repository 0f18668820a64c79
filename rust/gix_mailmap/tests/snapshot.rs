//! What a snapshot answers, in whatever way its entries came.
use gix_mailmap::actor::SignatureRef;
use gix_mailmap::{parse, parse_ignore_errors, ContactStream, Entry, Snapshot};
use std::borrow::Cow;
use std::collections::hash_map::DefaultHasher;
use std::hash::{Hash, Hasher};
use std::thread;

const TEXTS: [&[u8]; 22] = [
    b"",
    b"a",
    b"A",
    b"a b",
    b"#",
    b"a<",
    b"a>",
    b"<",
    b">",
    b" a",
    b"a ",
    b"\ta",
    b"a\n",
    b"a\r",
    b"\xff",
    b"\xffa\x80",
    "ä".as_bytes(),
    "\u{a0}a".as_bytes(),
    "a\u{3000}".as_bytes(),
    "\u{200b}a".as_bytes(),
    b"a\xe2\x80",
    b"\x80a",
];

fn contact<'a>(name: &'a [u8], email: &'a [u8]) -> SignatureRef<'a> {
    SignatureRef { name, email, time: "1711398853 +0800" }
}

/// What is found for a name and an email.
fn found(snapshot: &Snapshot, name: &[u8], email: &[u8]) -> Option<(Option<Vec<u8>>, Option<Vec<u8>>)> {
    let mut buffer = Vec::new();
    let found = snapshot.try_resolve_ref(contact(name, email), &mut buffer)?;
    Some((found.name.map(Vec::from), found.email.map(Vec::from)))
}

fn hash(snapshot: &Snapshot) -> u64 {
    let mut hasher = DefaultHasher::new();
    snapshot.hash(&mut hasher);
    hasher.finish()
}

/// The entry of each form with texts that differ in one place from plain ones, and with one text everywhere.
fn hostile() -> Vec<Entry<'static>> {
    let forms = |t: [&'static [u8]; 4]| {
        [
            Entry::change_name_by_email(t[0], t[3]),
            Entry::change_email_by_email(t[1], t[3]),
            Entry::change_name_and_email_by_email(t[0], t[1], t[3]),
            Entry::change_email_by_name_and_email(t[1], t[2], t[3]),
            Entry::change_name_and_email_by_name_and_email(t[0], t[1], t[2], t[3]),
        ]
    };
    let plain: [&[u8]; 4] = [b"N", b"n@x", b"O", b"o@x"];
    let mut all = Vec::new();
    for text in TEXTS {
        for place in 0..4 {
            let mut texts = plain;
            texts[place] = text;
            all.extend(forms(texts));
        }
        all.extend(forms([text; 4]));
    }
    all
}

#[test]
fn a_batch_is_merged_as_its_entries_one_by_one() {
    let entries = hostile();
    let mut one_by_one = Snapshot::default();
    for entry in &entries {
        one_by_one.merge([*entry]);
        // an entry alone, as the constructor made it
        let alone = Snapshot::new([*entry]);
        let is_given = |text: Option<&[u8]>| text.is_some_and(|text| !text.is_empty());
        let is_kept = is_given(entry.new_email()) || is_given(entry.new_name()) && !is_given(entry.old_name());
        assert_eq!(alone.iter().len(), usize::from(is_kept), "{entry:?}");
        for kept in alone.entries() {
            assert_eq!(kept.old_email(), entry.old_email());
            assert_eq!(kept.new_name().unwrap_or(b""), entry.new_name().unwrap_or(b""));
            assert_eq!(kept.new_email().unwrap_or(b""), entry.new_email().unwrap_or(b""));
            assert_eq!(kept.old_name().unwrap_or(b""), entry.old_name().unwrap_or(b""));
        }
    }
    let batch = Snapshot::new(entries);
    assert!(batch.iter().len() > 50 && batch.write().is_err());
    assert_eq!(batch, one_by_one);
}

#[test]
fn later_entries_replace_what_they_give() {
    let rows: [(&[u8], &[u8], &[u8], Option<(Option<&str>, Option<&str>)>); 9] = [
        (b"", b"a", b"a@x", None),
        (b"Jane <a@x>", b"jd", b"A@X", Some((Some("Jane"), Some("a@x")))),
        (b"Jane <a@x>", b"jd", b"a@x", Some((Some("Jane"), None))),
        (b"<j@x> <a@x>", b"jd", b"a@x", Some((None, Some("j@x")))),
        (b"P <a@x>\n<n@y> <a@x>", b"jd", b"a@x", Some((Some("P"), Some("n@y")))),
        (b"P <n@y> Jo <a@x>\n<m@y> jo <a@x>", b"JO", b"a@x", Some((None, Some("m@y")))),
        (b"P <a@x>\n<m@y> jo <a@x>", b"j", b"a@x", Some((Some("P"), None))),
        (b"P <a@x>\nplain\nQ <A@x>", b"j", b"a@x", Some((Some("Q"), None))),
        (b"J\xff <a@x>", b"j", b"b@x", None),
    ];
    for (text, name, email, wanted) in rows {
        let wanted = wanted.map(|(name, email)| (name.map(Vec::from), email.map(Vec::from)));
        let parsed = Snapshot::new(parse_ignore_errors(text));
        let mut merged = Snapshot::default();
        merged.merge_bytes(text).merge_bytes(b"");
        for snapshot in [&Snapshot::from_bytes(text), &parsed, &parsed.clone(), &merged] {
            assert_eq!(found(snapshot, name, email), wanted, "{snapshot:?}");
            assert_eq!(snapshot, &parsed);
            assert_eq!(hash(snapshot), hash(&parsed));
            assert_eq!(Snapshot::from_bytes(&snapshot.write().unwrap()), parsed);
        }
    }
}

#[test]
fn a_signature_is_resolved_in_each_form() {
    let snapshot = Snapshot::from_bytes(b"Jane <a@x>\n<j@x> <b@x>");
    let given = contact(b"jd", b"a@x");
    let cow = snapshot.resolve_cow(given);
    assert!(matches!((&cow.name, &cow.email), (Cow::Owned(_), Cow::Borrowed(_))));
    let owned = snapshot.resolve(given);
    assert_eq!((&owned.name[..], &owned.email[..], &owned.time[..]), (&b"Jane"[..], &b"a@x"[..], given.time));
    assert_eq!(snapshot.try_resolve(given), Some(owned.clone()));
    assert_eq!(gix_mailmap::actor::Signature::from(cow), owned);
    let other = contact(b"jd", b"c@x");
    assert_eq!(snapshot.try_resolve(other), None);
    assert_eq!(snapshot.resolve_cow(other), other.into());
    assert_eq!(snapshot.resolve(other).name, b"jd");
}

#[test]
fn a_buffer_grows_and_is_used_again() {
    let long = vec![b'n'; 100_000];
    let entries = [Entry::change_name_by_email(&long, "a@x"), Entry::change_email_by_email(&long, "b@x")];
    let snapshot = Snapshot::new(entries);
    let mut buffer = Vec::new();
    for (email, is_name) in [(b"a@x", true), (b"b@x", false), (b"A@x", true)] {
        let found = snapshot.try_resolve_ref(contact(&long, email), &mut buffer).unwrap();
        assert_eq!(if is_name { found.name } else { found.email }, Some(&long[..]));
    }
    let len = buffer.len();
    assert_eq!(snapshot.try_resolve_ref(contact(b"jd", b"c@x"), &mut buffer), None);
    assert_eq!(buffer.len(), len);
}

#[test]
fn what_no_line_holds_is_not_written() {
    let snapshot = Snapshot::new([Entry::change_name_by_email("N", "a@x"), Entry::change_name_by_email("<", "b@x")]);
    assert_eq!(snapshot.write().unwrap_err().index, 1);
    assert_eq!(snapshot.clone(), snapshot);
}

#[test]
fn items_borrow_from_the_buffer() {
    let text = b"# c\n\n  \xc2\xa0\r\n a <a@x> a <a@x> a\r\nplain\n<a\n< >\n<a@x>\na <a> b <\n<a> b <".to_vec();
    let items: Vec<_> = parse(&text).collect();
    let said = |index: usize| items[index].unwrap_err().to_string();
    let range = text.as_ptr_range();
    let entry = items[0].unwrap();
    for borrowed in [entry.new_name().unwrap(), entry.old_name().unwrap(), items[1].unwrap_err().input()] {
        assert!(range.contains(&borrowed.as_ptr()), "{borrowed:?}");
    }
    assert_eq!(entry, Entry::change_name_and_email_by_name_and_email("a", "a@x", "a", "a@x"));
    assert_eq!(said(1), "Line 5 does not contain an email");
    assert_eq!(said(2), "6: Missing closing bracket '>' in email");
    assert_eq!(said(3), "7: Email must not be empty");
    assert_eq!(said(4), "8: Emails without a name or email to map to are invalid");
    assert_eq!((items[4].unwrap_err().line(), items[4].unwrap_err().input()), (8, &b"<a@x>"[..]));
    assert_eq!(items[5], Ok(Entry::change_name_by_email("a", "a")));
    assert_eq!(said(6), "10: Emails without a name or email to map to are invalid");
    assert_eq!(items.len(), 7);
}

#[test]
fn threads_share_a_snapshot() {
    fn shared<T: Send + Sync>() {}
    fn sent<T: Send>() {}
    shared::<Snapshot>();
    sent::<ContactStream>();
    let lines: String = (0..1000).map(|number| format!("N{number} <a{number}@x>\n")).collect();
    let snapshot = Snapshot::from_bytes(lines.as_bytes());
    thread::scope(|scope| {
        for start in 0..4 {
            let snapshot = &snapshot;
            scope.spawn(move || {
                for number in (0..1000).map(|number| (number + 250 * start) % 1000) {
                    let answer = found(snapshot, b"", format!("A{number}@x").as_bytes());
                    let wanted = (Some(format!("N{number}").into()), Some(format!("a{number}@x").into()));
                    assert_eq!(answer, Some(wanted));
                }
                assert_eq!(snapshot.iter().len(), 1000);
            });
        }
    });
}

#[test]
fn the_versions_are_one() {
    assert_eq!(gix_mailmap::version(), env!("CARGO_PKG_VERSION"));
}
