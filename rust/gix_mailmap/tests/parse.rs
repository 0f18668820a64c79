//! Where the texts of entries and faults are: they are slices of the mailmap.
use gix_mailmap::{parse, parse::Error, Entry};

/// The offset of a text in the mailmap, and its length.
type Place = (usize, usize);

fn place(mailmap: &[u8], text: &[u8]) -> Place {
    (text.as_ptr() as usize - mailmap.as_ptr() as usize, text.len())
}

fn places(mailmap: &[u8], entry: &Entry<'_>) -> [Option<Place>; 4] {
    [entry.new_name(), entry.new_email(), entry.old_name(), Some(entry.old_email())]
        .map(|text| text.map(|text| place(mailmap, text)))
}

#[test]
fn entries_have_the_places_that_the_grammar_says() {
    let rows: [(&[u8], [Option<Place>; 4]); 7] = [
        (b"Joe <joe@x>", [Some((0, 3)), None, None, Some((5, 5))]),
        (b"#\n\n \tJoe<joe@x>\n", [Some((5, 3)), None, None, Some((9, 5))]),
        (b"<joe@x> <>", [None, Some((1, 5)), None, Some((9, 0))]),
        (b"J <j@x> J <j@x>", [Some((0, 1)), Some((3, 3)), Some((8, 1)), Some((11, 3))]),
        (b"\xc2\xa0J < j@x\t> j\xe3\x80\x80< k@x >\r\n", [Some((2, 1)), Some((6, 3)), Some((12, 1)), Some((18, 3))]),
        // the name is the last byte of the white space before it
        (b"\xe2\x80\x80\x80 <j@x>", [Some((3, 1)), None, None, Some((6, 3))]),
        (b"a<b <c<d> e> <f", [Some((0, 1)), None, None, Some((2, 6))]),
    ];
    for (mailmap, wanted) in rows {
        let items: Vec<_> = parse(mailmap).map(|item| places(mailmap, &item.unwrap())).collect();
        assert_eq!(items, [wanted], "{}", mailmap.escape_ascii());
    }
}

#[test]
fn faults_have_the_trimmed_line() {
    let mailmap = b"# us\nplain\n\n <j@x\r\nJ < > <j@x>\n\xc2\xa0<j@x> <k\n";
    let faults: Vec<_> = parse(mailmap).map(|item| item.unwrap_err()).collect();
    assert!(matches!(
        faults[..],
        [
            Error::NoEmail { line: 2, .. },
            Error::MissingClosingBracket { line: 4, .. },
            Error::EmptyEmail { line: 5, .. },
            Error::NothingToMap { line: 6, .. }
        ]
    ));
    let places: Vec<_> = faults.iter().map(|fault| place(mailmap, fault.input())).collect();
    assert_eq!(places, [(5, 5), (13, 4), (19, 11), (33, 8)]);
}

#[test]
fn an_iterator_goes_on_where_it_is() {
    let mut lines = parse(b"A <a@x>\nplain\nB <b@x>\n");
    assert!(lines.next().unwrap().is_ok());
    let mut copy = lines.clone();
    assert_eq!(lines.next(), copy.next());
    assert_eq!(copy.next().unwrap().unwrap().old_email(), b"b@x");
    assert_eq!((copy.next(), copy.next()), (None, None));
    assert_eq!(lines.count(), 1);
    assert_eq!(parse(b"").next(), None);
}
