//! Answers of the Rust original, the crate gix-mailmap, in the forms of this repository's programs.
//!
//! From the crate come the items of a walk over lines, snapshots, their entries, and what lookups find. What it doesn't
//! do is done here: contact lines, an input in two parts, and how all is written.
use bstr::{BStr, ByteSlice};
use gix_mailmap::snapshot::ResolvedSignature;
use gix_mailmap::{parse, parse_ignore_errors, Entry, Snapshot};
use std::error::Error;
use std::fmt::Write as _;
use std::hint::black_box;
use std::io::{Read, Write};
use std::process::ExitCode;
use std::time::Instant;
use std::{env, fs, io};

const USAGE: &str = "\
usage: oracle MODE ARGS
    check [FILE..]                  what mailmap_check prints for the contacts of standard input; without a FILE the
                                    mailmap comes before the contacts, and a line -- between them
    compact [FILE..]                what mailmap_check --compact prints
    parse FILE..                    what mailmap_dump prints with the same words
    entries FILE..
    resolve FILE..
    bench-parse FILE [N]            what mailmap_bench prints with the same words, but for its tallies
    bench-build FILE [N]
    bench-lookup FILE CONTACTS [N]
    bench-check FILE CONTACTS [N]
    bench-compact FILE [N]
    bench-merge1 FILE";

type Outcome<T> = Result<T, Box<dyn Error>>;

fn main() -> ExitCode {
    let words: Vec<String> = env::args().skip(1).collect();
    let printed = answer(&words).and_then(|text| Ok(io::stdout().write_all(&text)?));
    match printed {
        Ok(()) => ExitCode::SUCCESS,
        Err(error) => {
            eprintln!("oracle: {error}");
            ExitCode::FAILURE
        }
    }
}

/// What is printed for the words of a command line.
fn answer(words: &[String]) -> Outcome<Vec<u8>> {
    let [mode, words @ ..] = words else {
        return Err(USAGE.into());
    };
    if mode.starts_with("bench-") {
        return Ok(measure(mode, words)?.into_bytes());
    }
    let files = words.iter().map(read).collect::<Outcome<Vec<_>>>()?;
    Ok(match mode.as_str() {
        "check" if files.is_empty() => {
            let input = standard_input()?;
            let (mailmap, contacts) = parts(&input);
            check(&[mailmap], contacts)
        }
        "check" => check(&files, &standard_input()?),
        "compact" if files.is_empty() => compact(&[standard_input()?]),
        "compact" => compact(&files),
        "parse" => files
            .iter()
            .map(|file| items(file))
            .collect::<String>()
            .into_bytes(),
        "entries" => merged(&files)
            .iter()
            .map(|entry| entry_line(&entry))
            .collect::<String>()
            .into_bytes(),
        "resolve" => lookups(&merged(&files), &standard_input()?)?.into_bytes(),
        _ => return Err(USAGE.into()),
    })
}

fn read(path: &String) -> Outcome<Vec<u8>> {
    fs::read(path).map_err(|error| format!("{path}: {error}").into())
}

fn standard_input() -> Outcome<Vec<u8>> {
    let mut input = Vec::new();
    io::stdin().read_to_end(&mut input)?;
    Ok(input)
}

/// The snapshot of all files, later ones after earlier ones.
fn merged<T: AsRef<[u8]>>(files: &[T]) -> Snapshot {
    let mut snapshot = Snapshot::default();
    for file in files {
        snapshot.merge(parse_ignore_errors(file.as_ref()));
    }
    snapshot
}

/// A lookup of a name and an email, which gives what a snapshot finds for them.
fn lookup<'a>(
    name: &'a [u8],
    email: &'a [u8],
) -> impl Fn(&Snapshot) -> Option<ResolvedSignature<'_>> + 'a {
    let mut signature = empty_argument(Snapshot::try_resolve_ref);
    signature.name = name.into();
    signature.email = email.into();
    move |snapshot| snapshot.try_resolve_ref(signature)
}

/// An empty value of what a function takes. The type of signatures is one of another crate, which gix-mailmap doesn't
/// pass on. As it isn't named here, it is that of the version on which gix-mailmap depends.
fn empty_argument<'a, T: Default, R>(_: fn(&'a Snapshot, T) -> R) -> T {
    T::default()
}

// Contacts and mailmaps as text.

/// What comes before the first line `--`, which may be nothing, and what comes after it.
fn parts(input: &[u8]) -> (&[u8], &[u8]) {
    let mut start = 0;
    for line in input.lines_with_terminator() {
        let end = start + line.len();
        if matches!(line, b"--" | b"--\n" | b"--\r\n") {
            return (&input[..start], &input[end..]);
        }
        start = end;
    }
    (b"", input)
}

/// The name and the email of a line that is a contact.
fn contact(line: &[u8]) -> Option<(&[u8], &[u8])> {
    let open = line.find_byte(b'<')?;
    let close = open + line[open..].find_byte(b'>')?;
    Some((line[..open].trim(), line[open + 1..close].trim()))
}

/// Each line, or the contact that stands for it.
fn check<T: AsRef<[u8]>>(files: &[T], contacts: &[u8]) -> Vec<u8> {
    let snapshot = merged(files);
    let mut out = Vec::with_capacity(contacts.len() + contacts.len() / 4);
    for line in contacts.lines() {
        match contact(line) {
            Some((name, email)) => put_contact(&mut out, &snapshot, name, email),
            None => out.extend_from_slice(line),
        }
        out.push(b'\n');
    }
    out
}

fn put_contact<'a>(
    out: &mut Vec<u8>,
    snapshot: &'a Snapshot,
    mut name: &'a [u8],
    mut email: &'a [u8],
) {
    if let Some(found) = lookup(name, email)(snapshot) {
        name = found.name.map_or(name, |name| name);
        email = found.email.map_or(email, |email| email);
    }
    if !name.is_empty() {
        out.extend_from_slice(name);
        out.push(b' ');
    }
    out.push(b'<');
    out.extend_from_slice(email);
    out.push(b'>');
}

/// A line for each entry, each of its parts after a space.
fn compact<T: AsRef<[u8]>>(files: &[T]) -> Vec<u8> {
    let mut out = Vec::new();
    for entry in merged(files).entries() {
        put_part(&mut out, b" ", entry.new_name(), b"");
        put_part(&mut out, b" <", entry.new_email(), b">");
        put_part(&mut out, b" ", entry.old_name(), b"");
        put_part(&mut out, b" <", Some(entry.old_email()), b">\n");
    }
    out
}

fn put_part(out: &mut Vec<u8>, before: &[u8], part: Option<&BStr>, after: &[u8]) {
    if let Some(part) = part {
        out.extend_from_slice(before);
        out.extend_from_slice(part);
        out.extend_from_slice(after);
    }
}

// Dumps, whose texts are in hex.

/// A line for each item of a file. The crate has the number of a fault's line only in the fault's text, if at all, and
/// the line only in the metadata of an error of another crate. So both come from a second walk, line by line.
fn items(file: &[u8]) -> String {
    let mut lines = (1..)
        .zip(file.lines())
        .filter(|(_, line)| parse(line).next().is_some());
    let mut out = String::new();
    for item in parse(file) {
        let (number, line) = lines.next().expect("a line for each item");
        out += &match item {
            Ok(entry) => entry_line(&entry),
            Err(fault) => format!(
                "F {} {}\n",
                fault_text(&fault.to_string(), number),
                hex(Some(line.trim().into()))
            ),
        };
    }
    out
}

/// How the texts of faults end. What comes after that, such as the line, is no part of the text.
const ENDS: [&str; 4] = [
    "does not contain an email",
    "Missing closing bracket '>' in email",
    "Email must not be empty",
    "Emails without a name or email to map to are invalid",
];

/// The text of a fault, with the number of its line where the crate by a slip has `{line_number}`.
fn fault_text(fault: &str, number: usize) -> String {
    let ends = ENDS
        .iter()
        .filter_map(|end| Some(fault.find(end)? + end.len()));
    fault[..ends.min().unwrap_or(fault.len())].replace("{line_number}", &number.to_string())
}

fn entry_line(entry: &Entry<'_>) -> String {
    let [new_name, new_email] = [entry.new_name(), entry.new_email()].map(hex);
    let [old_name, old_email] = [entry.old_name(), Some(entry.old_email())].map(hex);
    format!("E {new_name} {new_email} {old_name} {old_email}\n")
}

/// What is found for each line NAME EMAIL.
fn lookups(snapshot: &Snapshot, pairs: &[u8]) -> Outcome<String> {
    let mut out = String::new();
    for line in pairs.lines() {
        let mut fields = line.fields().map(from_hex);
        let (Some(name), Some(email)) = (fields.next(), fields.next()) else {
            return Err("a name and an email are wanted".into());
        };
        let found = lookup(&name?, &email?)(snapshot);
        let (name, email) = found.map_or((None, None), |found| (found.name, found.email));
        writeln!(out, "{} {}", hex(name), hex(email))?;
    }
    Ok(out)
}

fn hex(text: Option<&BStr>) -> String {
    match text {
        None => "-".to_string(),
        Some(text) if text.is_empty() => ".".to_string(),
        Some(text) => text.iter().map(|byte| format!("{byte:02x}")).collect(),
    }
}

/// The text of a field.
fn from_hex(field: &[u8]) -> Outcome<Vec<u8>> {
    if field == b"." {
        return Ok(Vec::new());
    }
    let pairs = field
        .chunks(2)
        .map(|pair| Ok(u8::from_str_radix(pair.to_str()?, 16)?));
    pairs.collect()
}

// Benchmarks.

/// The line of figures for what a mode does again and again.
fn measure(mode: &str, words: &[String]) -> Outcome<String> {
    let file = read_argument(words, 0)?;
    let (times, counts) = match mode {
        "bench-parse" => walks(&file, number(words, 1)?),
        "bench-build" => builds(&file, number(words, 1)?),
        "bench-lookup" => repeated_lookups(&file, &read_argument(words, 1)?, number(words, 2)?),
        "bench-check" => {
            let contacts = read_argument(words, 1)?;
            let call = || check(black_box(&[&file]), black_box(&contacts));
            (timed(number(words, 2)?, call), String::new())
        }
        "bench-compact" => {
            let call = || compact(black_box(&[&file]));
            (timed(number(words, 1)?, call), String::new())
        }
        "bench-merge1" => single_merges(&file),
        _ => return Err(USAGE.into()),
    };
    Ok(figures(mode, times, &counts))
}

fn read_argument(words: &[String], place: usize) -> Outcome<Vec<u8>> {
    read(words.get(place).ok_or(USAGE)?)
}

fn number(words: &[String], place: usize) -> Outcome<usize> {
    match words.get(place) {
        Some(word) => Ok(word.parse()?),
        None => Ok(1),
    }
}

/// The nanoseconds of each of so many calls. Dropping what a call gives isn't counted.
fn timed<T>(count: usize, mut call: impl FnMut() -> T) -> Vec<u128> {
    let mut times = Vec::new();
    for _ in 0..count.max(1) {
        let start = Instant::now();
        let result = black_box(call());
        times.push(start.elapsed().as_nanos());
        drop(result);
    }
    times
}

fn figures(mode: &str, mut times: Vec<u128>, counts: &str) -> String {
    times.sort_unstable();
    let (count, total): (_, u128) = (times.len(), times.iter().sum());
    let [least, middle, most] = [0, count / 2, count - 1].map(|place| times[place]);
    format!("{mode} iters={count} total_ns={total} min_ns={least} median_ns={middle} max_ns={most}{counts}\n")
}

fn walks(file: &[u8], count: usize) -> (Vec<u128>, String) {
    let mut items = 0;
    let times = timed(count, || {
        items = 0;
        for item in parse(black_box(file)) {
            let _ = black_box(item);
            items += 1;
        }
    });
    (times, format!(" bytes={} items={items}", file.len()))
}

fn builds(file: &[u8], count: usize) -> (Vec<u128>, String) {
    let times = timed(count, || Snapshot::from_bytes(black_box(file)));
    let entries = Snapshot::from_bytes(file).iter().count();
    (times, format!(" bytes={} entries={entries}", file.len()))
}

fn repeated_lookups(file: &[u8], contacts: &[u8], count: usize) -> (Vec<u128>, String) {
    let snapshot = Snapshot::from_bytes(file);
    let lookups: Vec<_> = contacts
        .lines()
        .filter_map(contact)
        .map(|(name, email)| lookup(name, email))
        .collect();
    let times = timed(count, || {
        for lookup in &lookups {
            black_box(black_box(lookup)(&snapshot));
        }
    });
    let hits = lookups.iter().filter(|lookup| lookup(&snapshot).is_some());
    (
        times,
        format!(" contacts={} hits={}", lookups.len(), hits.count()),
    )
}

fn single_merges(file: &[u8]) -> (Vec<u128>, String) {
    let entries: Vec<Entry<'_>> = parse_ignore_errors(file).collect();
    let times = timed(1, || {
        let mut snapshot = Snapshot::default();
        for entry in black_box(&entries) {
            snapshot.merge([*entry]);
        }
        snapshot
    });
    (times, format!(" merges={}", entries.len()))
}
