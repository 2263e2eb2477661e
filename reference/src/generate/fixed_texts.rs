//! The texts of job lists that are always tried: every byte of a small one changed, every bound, and
//! each fault at each line.

use super::fixed_files::SEED;
use super::joblists::jobs_of;
use super::prng::{Prng, Purpose};
use super::sheet::Sheet;
use super::sheet_damage::{
    DEADLINE, GRADE, IMPORT_NUMBERS, NAME, PUT_IN, RELEASE, SIZE, WRONG_DECIMALS, WRONG_ENDS,
    WRONG_GRADES, WRONG_HEADERS,
};
use crate::edition::{HI, LO, MOST_JOBS};
use crate::joblist::{quoted, written_field, HEADER};
use crate::plan::Job;
use crate::refusal;

/// How often each fault is drawn for each line of a long list.
const DRAWS: usize = 3;

/// All of them, in their order.
pub fn fixed_texts() -> Vec<Vec<u8>> {
    let parts = [
        headers(),
        small_text_changed(),
        line_counts(),
        name_bytes(),
        grades(),
        numbers(),
        wrong_fields(),
        faults_at_each_line(),
        two_faults_in_a_line(),
    ];
    parts.concat()
}

/// Three jobs, two of them with names that have to be quoted.
fn three_jobs() -> Vec<Job> {
    let job = |name: &[u8; 8], grade, release, size, deadline| Job {
        name: *name,
        grade,
        release,
        size,
        deadline,
    };
    vec![
        job(b"Mirror-A", LO, 0, 6, 5),
        job(b"a,\"b\",c\"", HI, 10, 80, 100_000),
        job(b"mirror,A", HI, 1, 8, 10),
    ]
}

/// One line of three is changed in a text, and stands between two right ones.
const CHANGED: usize = 1;

fn changed(change: impl Fn(&mut Sheet)) -> Vec<u8> {
    let mut jobs = three_jobs();
    jobs[CHANGED].name = *b"only-job";
    let mut sheet = Sheet::plain(&jobs);
    change(&mut sheet);
    sheet.text()
}

fn headers() -> Vec<Vec<u8>> {
    let mut texts = Vec::new();
    let lines = Sheet::plain(&three_jobs()).text()[HEADER.len()..].to_vec();
    for header in WRONG_HEADERS {
        texts.push(header.to_vec());
        texts.push([header, &lines].concat());
    }
    texts.push(HEADER.repeat(2));
    texts
}

/// Every beginning of a text, and every byte of it changed, left out, and with others put in before it.
fn small_text_changed() -> Vec<Vec<u8>> {
    let mut texts = Vec::new();
    let jobs = &three_jobs()[..2];
    for whole in [Sheet::plain(jobs).text(), Sheet::quoted(jobs).text()] {
        texts.push(whole.clone());
        for place in 0..whole.len() {
            let (before, after) = whole.split_at(place);
            texts.push(before.to_vec());
            texts.push([before, &after[1..]].concat());
            for change in [0x01, 0x10, 0x20, 0x80] {
                texts.push([before, &[after[0] ^ change], &after[1..]].concat());
            }
            for bytes in PUT_IN {
                texts.push([before, bytes, after].concat());
            }
            for byte in [b'"', b',', b'\r', b'\n'] {
                texts.push([before, &[byte], &after[1..]].concat());
            }
        }
        for bytes in PUT_IN {
            texts.push([&whole, bytes].concat());
        }
    }
    texts
}

/// Each number of lines up to two too many, and each byte after as many as there may be.
fn line_counts() -> Vec<Vec<u8>> {
    let prng = &mut Prng::new(SEED, Purpose::Fixed, 0);
    let jobs = jobs_of(prng, MOST_JOBS + 2);
    let mut texts = Vec::new();
    for count in 0..=jobs.len() {
        texts.push(Sheet::plain(&jobs[..count]).text());
        texts.push(Sheet::quoted(&jobs[..count]).text());
    }
    let full = Sheet::drawn(prng, &jobs[..MOST_JOBS]).text();
    for byte in 0..=u8::MAX {
        texts.push([&full[..], &[byte]].concat());
    }
    for rest in WRONG_ENDS {
        texts.push([&full[..], rest].concat());
    }
    texts
}

/// Each byte at the first, a middle and the last place of a name, with and without quotes.
fn name_bytes() -> Vec<Vec<u8>> {
    let mut texts = Vec::new();
    for byte in 0..=u8::MAX {
        for place in [0, 4, 7] {
            let mut name = *b"only-job";
            name[place] = byte;
            for text in [name.to_vec(), quoted(&name)] {
                texts.push(changed(|sheet| sheet.lines[CHANGED].set(NAME, &text)));
            }
        }
    }
    // Names of other lengths.
    for length in 0..=20 {
        for byte in [b'a', b'"', b',', b' '] {
            let name = vec![byte; length];
            for text in [written_field(&name), quoted(&name)] {
                texts.push(changed(|sheet| sheet.lines[CHANGED].set(NAME, &text)));
            }
        }
    }
    texts
}

/// Each byte as a grade, with and without quotes, and longer grades.
fn grades() -> Vec<Vec<u8>> {
    let mut texts = Vec::new();
    for byte in 0..=u8::MAX {
        for text in [vec![byte], quoted(&[byte]), vec![b'"', byte, b'"']] {
            texts.push(changed(|sheet| sheet.lines[CHANGED].set(GRADE, &text)));
        }
    }
    for text in WRONG_GRADES {
        texts.push(changed(|sheet| sheet.lines[CHANGED].set(GRADE, text)));
    }
    texts
}

/// Each number around each bound and around powers of two, and long rows of digits.
fn numbers() -> Vec<Vec<u8>> {
    let mut around: Vec<u128> = vec![0, 1, 2, 3];
    for limit in [10, 100_000, 100_000_000] {
        around.extend([limit - 1, limit, limit + 1]);
    }
    for bits in [8, 16, 31, 32, 63, 64, 127] {
        let power = 1_u128 << bits;
        around.extend([power - 1, power, power + 1, power + 20, power + 100_000]);
    }
    let mut fields: Vec<Vec<u8>> = around
        .iter()
        .map(|number| number.to_string().into_bytes())
        .collect();
    for length in [10, 19, 20, 21, 38, 39, 40, 100, 1_000, 100_000] {
        fields.push(vec![b'9'; length]);
        fields.push([&b"1"[..], &vec![b'0'; length - 1]].concat());
    }
    let mut texts = Vec::new();
    for position in [RELEASE, SIZE, DEADLINE] {
        for field in &fields {
            for text in [field.clone(), quoted(field)] {
                texts.push(changed(|sheet| sheet.lines[CHANGED].set(position, &text)));
            }
        }
    }
    texts
}

/// Wrong decimals and wrong ends at the first, the middle and the last line, and other numbers of fields.
fn wrong_fields() -> Vec<Vec<u8>> {
    let mut texts = Vec::new();
    for line in 0..3 {
        for text in WRONG_DECIMALS {
            for position in [RELEASE, SIZE, DEADLINE] {
                texts.push(changed(|sheet| sheet.lines[line].set(position, text)));
            }
        }
        for end in WRONG_ENDS {
            texts.push(changed(|sheet| sheet.lines[line].end = end.to_vec()));
        }
        for count in 0..10 {
            for more in [&b""[..], b"0", b"\"\""] {
                texts.push(changed(|sheet| {
                    sheet.lines[line].fields.resize(count, more.to_vec());
                }));
            }
        }
    }
    texts
}

/// Each fault at each line of a list that is as long as it may be.
fn faults_at_each_line() -> Vec<Vec<u8>> {
    let prng = &mut Prng::new(SEED, Purpose::Fixed, 1);
    let jobs = jobs_of(prng, MOST_JOBS);
    let mut texts = Vec::new();
    for line in 0..MOST_JOBS {
        for number in line_numbers() {
            for _ in 0..DRAWS {
                let mut sheet = Sheet::drawn(prng, &jobs);
                sheet.strike_line(prng, number, line);
                texts.push(sheet.text());
            }
        }
    }
    texts
}

/// Every two faults in one line, and in two lines one after the other.
fn two_faults_in_a_line() -> Vec<Vec<u8>> {
    let prng = &mut Prng::new(SEED, Purpose::Fixed, 2);
    let mut texts = Vec::new();
    for first in line_numbers() {
        for second in line_numbers() {
            for later in [CHANGED, CHANGED + 1] {
                for _ in 0..DRAWS {
                    let mut sheet = Sheet::drawn(prng, &three_jobs());
                    // The later line first: the damage to the other may add a line or cut.
                    sheet.strike_line(prng, second, later);
                    if CHANGED < sheet.lines.len() {
                        sheet.strike_line(prng, first, CHANGED);
                    }
                    texts.push(sheet.text());
                }
            }
        }
    }
    texts
}

/// The numbers that are told of a line or of one of its fields.
fn line_numbers() -> Vec<u8> {
    let mut numbers = IMPORT_NUMBERS.to_vec();
    numbers.retain(|&number| number != refusal::JOB_COUNT && number != refusal::HEADER);
    numbers
}
