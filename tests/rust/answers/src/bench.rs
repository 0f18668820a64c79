//! How long lookups take, by the crate and by the C call below it.
use crate::Outcome;
use gix_mailmap::actor::SignatureRef;
use gix_mailmap::Snapshot;
use std::hint::black_box;
use std::time::Instant;
use std::{fs, ptr};

/// `gix_mailmap_field`
#[repr(C)]
#[derive(Default)]
struct Field {
    len: usize,
    is_given: bool,
}

extern "C" {
    fn gix_mailmap_open(map: *mut *mut u8, text: *const u8, text_len: usize) -> u32;
    fn gix_mailmap_lookup(
        map: *const u8,
        name: *const u8,
        name_len: usize,
        email: *const u8,
        email_len: usize,
        name_out: *mut u8,
        name_out_len: usize,
        new_name: *mut Field,
        email_out: *mut u8,
        email_out_len: usize,
        new_email: *mut Field,
    ) -> u32;
}

type Contact<'a> = (&'a [u8], &'a [u8]);

/// The line of figures: the nanoseconds of each of N rounds over all contacts.
pub fn measure(mode: &str, words: &[String]) -> Outcome<String> {
    let [file, contacts, rest @ ..] = words else {
        return Err(crate::USAGE.into());
    };
    let count = rest.first().map_or(Ok(1), |word| word.parse())?;
    let (mailmap, lines) = (fs::read(file)?, fs::read(contacts)?);
    let contacts: Vec<Contact<'_>> = lines.split(|&byte| byte == b'\n').filter_map(contact).collect();
    let (mut times, hits) = match mode {
        "bench-lookup" => by_crate(&mailmap, &contacts, count),
        _ => by_call(&mailmap, &contacts, count),
    };
    times.sort_unstable();
    let [least, middle, most] = [0, times.len() / 2, times.len() - 1].map(|place| times[place]);
    let total: u128 = times.iter().sum();
    let figures = format!("total_ns={total} min_ns={least} median_ns={middle} max_ns={most}");
    Ok(format!("{mode} iters={count} {figures} contacts={} hits={hits}\n", contacts.len()))
}

/// The name and the email of a line that is a contact, without the spaces around them.
fn contact(line: &[u8]) -> Option<Contact<'_>> {
    let open = line.iter().position(|&byte| byte == b'<')?;
    let close = open + line[open..].iter().position(|&byte| byte == b'>')?;
    Some((line[..open].trim_ascii(), line[open + 1..close].trim_ascii()))
}

/// The nanoseconds of each of so many rounds, and how many contacts a round finds.
fn timed(count: usize, mut round: impl FnMut() -> usize) -> (Vec<u128>, usize) {
    let mut hits = 0;
    let once = |_| {
        let start = Instant::now();
        hits = black_box(round());
        start.elapsed().as_nanos()
    };
    ((0..count.max(1)).map(once).collect(), hits)
}

fn by_crate(mailmap: &[u8], contacts: &[Contact<'_>], count: usize) -> (Vec<u128>, usize) {
    let (snapshot, mut buffer) = (Snapshot::from_bytes(mailmap), Vec::new());
    timed(count, || {
        let mut hits = 0;
        for &(name, email) in black_box(contacts) {
            let found = snapshot.try_resolve_ref(SignatureRef { name, email, time: "" }, &mut buffer);
            hits += usize::from(black_box(found).is_some());
        }
        hits
    })
}

fn by_call(mailmap: &[u8], contacts: &[Contact<'_>], count: usize) -> (Vec<u128>, usize) {
    let (mut map, mut name_out, mut email_out) = (ptr::null_mut(), [0; 256], [0; 256]);
    // SAFETY: the text is as long as is said, and `map` is written.
    let status = unsafe { gix_mailmap_open(&mut map, mailmap.as_ptr(), mailmap.len()) };
    assert_eq!(status, 0);
    timed(count, || {
        let mut hits = 0;
        for &(name, email) in black_box(contacts) {
            let (mut new_name, mut new_email) = (Field::default(), Field::default());
            // SAFETY: the mailmap stays open, and the texts and buffers are as long as is said.
            let status = unsafe {
                gix_mailmap_lookup(
                    map,
                    name.as_ptr(),
                    name.len(),
                    email.as_ptr(),
                    email.len(),
                    name_out.as_mut_ptr(),
                    name_out.len(),
                    &mut new_name,
                    email_out.as_mut_ptr(),
                    email_out.len(),
                    &mut new_email,
                )
            };
            black_box((&name_out, &email_out, status));
            hits += usize::from(new_name.is_given || new_email.is_given);
        }
        hits
    })
}
