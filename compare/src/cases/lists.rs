//! Exporting job lists.

use super::plan_e::{list_words, listing, memory_of, named_words, Job, HI, JOBS, LO, ROWS};
use super::Cases;
use crate::buffer::Buffer;
use crate::memory::Listing;
use crate::words::{listed_at, DEADLINE, GRADE, LISTED_COUNT, LIST_WORDS, NAME, RELEASE, SIZE};

/// The text of plan E's jobs.
const TEXT: &[u8] = b"name,grade,release,size,deadline\r\n\
    Mirror-A,L,0,6,5\r\n\
    mirror-A,H,1,8,10\r\n";
const LENGTH: usize = 71;

/// A list of these words.
fn listing_of(words: &[u64]) -> Listing {
    let mut listing = listing();
    listing.list.put(0, words);
    listing
}

fn plan_e() -> Listing {
    listing_of(&list_words(&JOBS))
}

/// Exports a list and expects a number, a length and the bytes of a text; those past it stay.
fn export_as(
    cases: &mut Cases,
    case: &str,
    listing: &mut Listing,
    number: u32,
    text: &[u8],
) -> Result<(), String> {
    let got = cases.both.export(listing);
    cases.expect(case, got, number)?;
    cases.expect(case, Ok(listing.written.contents()[0]), text.len())?;
    let (written, rest) = listing.out.contents().split_at(text.len());
    cases.expect(case, Ok(written), text)?;
    let untouched = plan_e();
    cases.expect(case, Ok(rest), &untouched.out.contents()[text.len()..])
}

/// A name is in quotes exactly if it holds a comma or a quote.
pub fn done(cases: &mut Cases) -> Result<(), String> {
    let lists: [(&str, &[Job], &[u8]); 6] = [
        ("one job", &JOBS[1..], b"mirror-A,H,1,8,10\r\n"),
        ("comma", &[(b"mirror,A", LO, 0, 1, 1)], b"\"mirror,A\",L,0,1,1\r\n"),
        (
            "commas and quotes",
            &[(b"a,\"b\",c\"", HI, 0, 1, 1)],
            b"\"a,\"\"b\"\",c\"\"\",H,0,1,1\r\n",
        ),
        (
            "nothing but quotes",
            &[(b"\"\"\"\"\"\"\"\"", LO, 0, 1, 1)],
            b"\"\"\"\"\"\"\"\"\"\"\"\"\"\"\"\"\"\",L,0,1,1\r\n",
        ),
        ("no need for quotes", &[(b"=';!~ab\\", LO, 0, 1, 1)], b"=';!~ab\\,L,0,1,1\r\n"),
        (
            "greatest numbers",
            &[(b"greatest", HI, 99_999, 100_000_000, 100_000)],
            b"greatest,H,99999,100000000,100000\r\n",
        ),
    ];
    export_as(cases, "plan E", &mut plan_e(), 0, TEXT)?;
    for (case, jobs, lines) in lists {
        let text = [&TEXT[..34], lines].concat();
        let listing = &mut listing_of(&list_words(jobs));
        export_as(cases, case, listing, 0, &text)?;
    }
    Ok(())
}

/// Just enough room, one byte less, and none.
pub fn rooms(cases: &mut Cases) -> Result<(), String> {
    let listing = &mut plan_e();
    for (room, number, text) in [
        (LENGTH + 1, 0, TEXT),
        (LENGTH, 0, TEXT),
        (LENGTH - 1, 22, &[]),
        (1, 22, &[]),
        (0, 22, &[]),
    ] {
        listing.out.lend(room);
        export_as(cases, &format!("room for {} bytes", room), listing, number, text)?;
    }
    listing.list.put(LISTED_COUNT, &[3]);
    export_as(cases, "21 comes before 22", listing, 21, &[])?;
    for length in [0, 1, LIST_WORDS - 1] {
        listing.list.lend(length);
        let untouched = plan_e();
        let got = cases.both.export(listing);
        cases.expect("export, list too short", got, 22)?;
        let (written, out) = (listing.written.contents(), listing.out.contents());
        cases.expect("export, list too short", Ok(written), untouched.written.contents())?;
        cases.expect("export, list too short", Ok(out), untouched.out.contents())?;
    }
    Ok(())
}

/// Plan E's list with a word replaced by one that a rule from 5 to 9 does not allow.
pub fn unsound(cases: &mut Cases) -> Result<(), String> {
    let (first, second) = (listed_at(0), listed_at(1));
    let name = u64::from_be_bytes(*b"Mirror-A");
    let replaced = [
        ("job of zeros", LISTED_COUNT, 3),
        ("name with a space", first + NAME, u64::from_be_bytes(*b"Mirror A")),
        ("name with byte 0x7F", first + NAME, u64::from_be_bytes(*b"\x7Firror-A")),
        ("name with CRLF", first + NAME, u64::from_be_bytes(*b"Mirror\r\n")),
        ("name 0", second + NAME, 0),
        ("name of the job before", second + NAME, name),
        ("grade 2", second + GRADE, 2),
        ("grade H", second + GRADE, u64::from(b'H')),
        ("grade 1 + 2^8", second + GRADE, 1 + (1 << 8)),
        ("grade 2^32", second + GRADE, 1 << 32),
        ("release at the deadline", second + RELEASE, 10),
        ("release 1 + 2^32", second + RELEASE, 1 + (1 << 32)),
        ("size 0", second + SIZE, 0),
        ("size 100000001", second + SIZE, 100_000_001),
        ("size 8 + 2^32", second + SIZE, 8 + (1 << 32)),
        ("size 2^64 - 1", second + SIZE, u64::MAX),
        ("deadline 0", first + DEADLINE, 0),
        ("deadline 100001", second + DEADLINE, 100_001),
        ("deadline 10 + 2^32", second + DEADLINE, 10 + (1 << 32)),
    ];
    for (case, at, word) in replaced {
        let listing = &mut plan_e();
        listing.list.put(at, &[word]);
        export_as(cases, case, listing, 21, &[])?;
    }
    let listing = &mut plan_e();
    listing.list.put(listed_at(2), &[u64::MAX; LIST_WORDS - 11]);
    export_as(cases, "rubbish from the count on", listing, 0, TEXT)
}

/// A list of which every record is sound. All names but the first have one byte that is no quote.
fn full() -> Vec<u64> {
    let mut names = [[b'"'; 8]; 32];
    for (i, name) in names.iter_mut().enumerate().skip(1) {
        name[i % 8] = b'A' + i as u8;
    }
    named_words(&names, [HI, 99_999, 100_000_000, 100_000])
}

/// Counts that are right if bits are cut off, or if the nearest right one is taken.
pub fn counts(cases: &mut Cases) -> Result<(), String> {
    let listing = &mut listing_of(&full());
    for bits in [8, 16, 31, 32, 63] {
        for count in [1 << bits, (1 << bits) + 1, (1 << bits) + 32] {
            listing.list.put(LISTED_COUNT, &[count]);
            export_as(cases, &format!("count {}", count), listing, 21, &[])?;
        }
    }
    for count in [0, 33, 34, 64, 255, u64::MAX] {
        listing.list.put(LISTED_COUNT, &[count]);
        export_as(cases, &format!("count {}", count), listing, 21, &[])?;
    }
    Ok(())
}

/// The longest text that there is: the header's 34 bytes, a line of 45, and 31 lines of 44.
pub fn longest(cases: &mut Cases) -> Result<(), String> {
    let words = full();
    let listing = &mut listing_of(&words);
    let case = "longest text";
    let got = cases.both.export(listing);
    cases.expect(case, got, 0)?;
    let length = listing.written.contents()[0];
    cases.expect(case, Ok(length), 34 + 45 + 31 * 44)?;
    let text = listing.out.contents()[..length].to_vec();
    import_as(cases, case, listing, &text, &words)
}

/// Imports a text to where a list stands, and expects the words of another.
fn import_as(
    cases: &mut Cases,
    case: &str,
    listing: &mut Listing,
    text: &[u8],
    words: &[u64],
) -> Result<(), String> {
    let got = cases.both.import(&mut Buffer::of("text", text, text.len()), listing);
    cases.expect(case, got, 0)?;
    cases.expect(case, Ok(&listing.list.contents()[..LIST_WORDS]), words)
}

/// A plan's words from the count on are the list of its jobs. Its rates stand in the border.
pub fn of_plan(cases: &mut Cases) -> Result<(), String> {
    let listing = &mut Listing::of_plan(&memory_of(&JOBS, &ROWS).plan);
    export_as(cases, "plan E's own list", listing, 0, TEXT)?;
    let first = &TEXT[..LENGTH - 19];
    import_as(cases, "its first job alone", listing, first, &list_words(&JOBS[..1]))?;
    export_as(cases, "its first job alone", listing, 0, first)?;
    import_as(cases, "both jobs again", listing, TEXT, &list_words(&JOBS))
}
