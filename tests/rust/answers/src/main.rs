//! Answers of the crate in rust/gix_mailmap, in the forms of this repository's programs, as the program in
//! tests/original/oracle gives those of the original crate.
use gix_mailmap::actor::SignatureRef;
use gix_mailmap::{check, parse, parse_ignore_errors, ContactStream, Entry, Snapshot};
use std::error::Error;
use std::fmt::Write as _;
use std::io::{Read, Write};
use std::{env, fs, io};

mod bench;

const USAGE: &str = "\
usage: answers FILE..                                what mailmap_check prints for the contacts of standard input
       answers --compact FILE..                      what mailmap_check --compact prints
       answers parse|entries|resolve FILE..          what mailmap_dump prints with the same words
       answers bench-lookup FILE CONTACTS [N]        the time of all lookups, as tests/original/oracle prints it
       answers bench-lookup-c FILE CONTACTS [N]      the same, by the C call itself";

pub type Outcome<T> = Result<T, Box<dyn Error>>;

fn main() -> Outcome<()> {
    let words: Vec<String> = env::args().skip(1).collect();
    io::stdout().write_all(&answer(&words)?)?;
    Ok(())
}

fn answer(words: &[String]) -> Outcome<Vec<u8>> {
    let mode = words.first().ok_or(USAGE)?.as_str();
    let read = |words: &[String]| words.iter().map(fs::read).collect::<io::Result<Vec<_>>>();
    Ok(match mode {
        "bench-lookup" | "bench-lookup-c" => bench::measure(mode, &words[1..])?.into_bytes(),
        "--compact" => merged(&read(&words[1..])?).write()?,
        "parse" => read(&words[1..])?.iter().map(|file| items(file)).collect::<String>().into_bytes(),
        "entries" => entry_lines(&merged(&read(&words[1..])?)).into_bytes(),
        "resolve" => lookups(&merged(&read(&words[1..])?), &standard_input()?)?.into_bytes(),
        _ => checked(&merged(&read(words)?).write()?, &standard_input()?)?,
    })
}

fn standard_input() -> Outcome<Vec<u8>> {
    let mut input = Vec::new();
    io::stdin().read_to_end(&mut input)?;
    Ok(input)
}

/// The snapshot of all files, later ones after earlier ones.
fn merged(files: &[Vec<u8>]) -> Snapshot {
    let mut snapshot = Snapshot::default();
    for file in files {
        snapshot.merge(parse_ignore_errors(file));
    }
    snapshot
}

/// The answers to contacts, which have to be the same by a stream, in parts of three bytes.
fn checked(mailmap: &[u8], contacts: &[u8]) -> Outcome<Vec<u8>> {
    let (mut stream, mut out, mut answers) = (ContactStream::new(mailmap), [0; 5], Vec::new());
    let mut read = |stream: &mut ContactStream| {
        while let count @ 1.. = stream.read(&mut out) {
            answers.extend_from_slice(&out[..count]);
        }
    };
    for mut part in contacts.chunks(3) {
        while !part.is_empty() {
            part = &part[stream.push(part)..];
            read(&mut stream);
        }
    }
    stream.finish();
    read(&mut stream);
    if answers != check(mailmap, contacts) {
        return Err("a stream has other answers".into());
    }
    Ok(answers)
}

fn items(file: &[u8]) -> String {
    let line = |item| match item {
        Ok(entry) => entry_line(&entry),
        Err(fault) => format!("F {fault} {}\n", hex(Some(gix_mailmap::parse::Error::input(&fault)))),
    };
    parse(file).map(line).collect()
}

fn entry_lines(snapshot: &Snapshot) -> String {
    snapshot.iter().map(|entry| entry_line(&entry)).collect()
}

fn entry_line(entry: &Entry<'_>) -> String {
    let [new_name, new_email] = [entry.new_name(), entry.new_email()].map(hex);
    let [old_name, old_email] = [entry.old_name(), Some(entry.old_email())].map(hex);
    format!("E {new_name} {new_email} {old_name} {old_email}\n")
}

/// What is found for each line NAME EMAIL.
fn lookups(snapshot: &Snapshot, pairs: &[u8]) -> Outcome<String> {
    let (mut out, mut buffer) = (String::new(), Vec::new());
    for line in std::str::from_utf8(pairs)?.lines() {
        let (name, email) = line.split_once(' ').ok_or("a name and an email are wanted")?;
        let (name, email) = (from_hex(name)?, from_hex(email)?);
        let signature = SignatureRef { name: &name, email: &email, time: "" };
        let found = snapshot.try_resolve_ref(signature, &mut buffer);
        let (name, email) = found.map_or((None, None), |found| (found.name, found.email));
        writeln!(out, "{} {}", hex(name), hex(email))?;
    }
    Ok(out)
}

/// A text in hex: `.` if it is empty, and `-` if there is none.
fn hex(text: Option<&[u8]>) -> String {
    match text {
        None => "-".to_string(),
        Some(b"") => ".".to_string(),
        Some(text) => text.iter().map(|byte| format!("{byte:02x}")).collect(),
    }
}

fn from_hex(field: &str) -> Outcome<Vec<u8>> {
    let digits = if field == "." { "" } else { field };
    let pairs = (0..digits.len()).step_by(2).map(|start| Ok(u8::from_str_radix(&digits[start..start + 2], 16)?));
    pairs.collect()
}
