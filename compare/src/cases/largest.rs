//! The largest file: 32 jobs, 63 intervals, a row for each of 2,016 places.

use reference::edition::{LARGEST_FILE, MOST_INTERVALS, MOST_JOBS, TABLE_PLACES};

use super::plan_e::memory;
use super::Cases;
use crate::buffer::Buffer;

fn name(job: usize) -> [u8; 8] {
    [b'l', b'a', b'r', b'g', b'e', b'-', b'-', b'A' + job as u8]
}

/// The bytes: no two windows share an end, and each place holds one unit more than its number.
fn bytes() -> Vec<u8> {
    let mut file = vec![1];
    file.extend((LARGEST_FILE as u32 - 5).to_be_bytes());
    file.extend([3, 232, 0, 1, MOST_JOBS as u8]);
    for i in 0..MOST_JOBS {
        file.push(21);
        file.extend(name(i));
        file.push((i % 2) as u8);
        for field in [i, 1, MOST_INTERVALS - i] {
            file.extend((field as u32).to_be_bytes());
        }
    }
    file.extend((TABLE_PLACES as u16).to_be_bytes());
    for place in 0..TABLE_PLACES {
        file.push(14);
        file.extend(name(place / MOST_INTERVALS));
        file.extend(((place % MOST_INTERVALS) as u16).to_be_bytes());
        file.extend((place as u32 + 1).to_be_bytes());
    }
    file
}

/// It is read and written again; a byte less or more anywhere is refused.
pub fn file(cases: &mut Cases) -> Result<(), String> {
    let bytes = bytes();
    let mut file = Buffer::of("file", &bytes, LARGEST_FILE);
    let memory = &mut memory();
    let got = cases.both.read(&mut file, memory);
    cases.expect("largest file, read", got, 0)?;
    let units: Vec<u32> = (1..=TABLE_PLACES as u32).collect();
    cases.expect("largest file, table", Ok(memory.own_places()), &units)?;
    let got = cases.both.write(memory);
    cases.expect("largest file, written", got, 0)?;
    cases.expect(
        "largest file, length",
        Ok(memory.written.contents()[0]),
        LARGEST_FILE,
    )?;
    cases.expect("largest file, bytes", Ok(memory.out.contents()), &bytes)?;
    memory.out.lend(LARGEST_FILE - 1);
    let got = cases.both.write(memory);
    cases.expect("largest file, output too short", got, 22)?;
    let got = cases.both.judge(memory);
    cases.expect("largest file, judged", got, 15)?;
    // The second job's window begins after the first interval.
    let location = memory.location.contents()[..2].to_vec();
    cases.expect("largest file, judged", Ok(location), vec![1, 0])?;
    longer(cases, bytes)
}

/// One byte more, with a length field that counts it.
fn longer(cases: &mut Cases, mut bytes: Vec<u8>) -> Result<(), String> {
    bytes.push(14);
    bytes[4] += 1;
    let mut file = Buffer::of("file", &bytes, bytes.len());
    let memory = &mut memory();
    let got = cases.both.read(&mut file, memory);
    cases.expect("largest file and a byte, read", got, 2)?;
    let offset = memory.offset.contents()[0];
    cases.expect("largest file and a byte, offset", Ok(offset), LARGEST_FILE)
}
