//! Inputs of `runplan` that it has to bear: no plan, lengths that lie, refused plans, odd speeds.

use super::draft::{patch, plan_e, row_at, LENGTH_AT, NAME_IN, UNITS_IN};
use crate::edition::{HEAD_BYTES, LARGEST_FILE, VERSION};

/// What an input is, and its bytes.
type Named = (&'static str, Vec<u8>);

/// More bytes than the largest file has.
const TOO_MANY: usize = 32_000;

/// All of them, in their order.
pub fn bad_inputs() -> Vec<Named> {
    let parts = [
        no_plan(),
        lengths_of_filler(),
        lengths_of_plan_e(),
        refused_plans(),
        odd_speeds(),
    ];
    parts.concat()
}

/// These bytes, and then 0xFF up to a length.
fn filled(first: &[u8], length: usize) -> Vec<u8> {
    let mut input = first.to_vec();
    input.resize(length, 0xFF);
    input
}

/// The version and a length field.
fn head(length: usize) -> Vec<u8> {
    let mut head = vec![VERSION];
    head.extend((length as u32).to_be_bytes());
    head
}

/// Plan E with bytes replaced, and then others.
fn e_with(at: usize, bytes: &[u8], follows: &[u8]) -> Vec<u8> {
    let mut input = plan_e().file();
    patch(&mut input, at, bytes);
    input.extend(follows);
    input
}

/// Plan E with another length field, and then other bytes.
fn e_of_length(length: usize, follows: &[u8]) -> Vec<u8> {
    e_with(LENGTH_AT, &(length as u32).to_be_bytes(), follows)
}

fn no_plan() -> Vec<Named> {
    vec![
        ("empty", Vec::new()),
        ("one byte, 0", vec![0]),
        ("one byte, the version", vec![VERSION]),
        ("four bytes", vec![VERSION, 0, 0, 0]),
        (
            "length 0 and two speeds",
            [head(0), vec![0, 2, 0, 2]].concat(),
        ),
        (
            "as many bytes of 0xFF as the largest file",
            filled(&[], LARGEST_FILE),
        ),
        ("32000 bytes of 0xFF", filled(&[], TOO_MANY)),
    ]
}

fn lengths_of_filler() -> Vec<Named> {
    let whole = LARGEST_FILE - HEAD_BYTES;
    let endless = head(u32::MAX as usize);
    vec![
        (
            "length 0xFFFFFFFF, as long as the largest file",
            filled(&endless, LARGEST_FILE),
        ),
        ("length 0xFFFFFFFF, 32000 bytes", filled(&endless, TOO_MANY)),
        ("length 0xFFFFFFFF alone", endless),
        (
            "largest length, as many bytes",
            filled(&head(whole), LARGEST_FILE),
        ),
        (
            "largest length, 32000 bytes",
            filled(&head(whole), TOO_MANY),
        ),
        (
            "largest length and one, 32000 bytes",
            filled(&head(whole + 1), TOO_MANY),
        ),
    ]
}

fn lengths_of_plan_e() -> Vec<Named> {
    let file = plan_e().file();
    let (end, right) = (file.len(), file.len() - HEAD_BYTES);
    vec![
        (
            "plan E, length 0xFFFFFFFF",
            e_of_length(u32::MAX as usize, &[0, 2, 0, 2]),
        ),
        ("plan E, length one less", e_of_length(right - 1, &[])),
        ("plan E, length one more", e_of_length(right + 1, &[0, 2])),
        ("plan E cut in its length", file[..HEAD_BYTES - 2].to_vec()),
        ("plan E without its last byte", file[..end - 1].to_vec()),
    ]
}

fn refused_plans() -> Vec<Named> {
    let units = row_at(2, 3) + UNITS_IN;
    vec![
        (
            "plan E with a row of MIRROR-A, a speed, an odd byte",
            e_with(row_at(2, 0) + NAME_IN, b"MIRROR-A", &[0, 2, 0]),
        ),
        (
            "plan E with a unit too few, a speed, an odd byte",
            e_with(units, &3_u32.to_be_bytes(), &[0, 2, 0]),
        ),
    ]
}

fn odd_speeds() -> Vec<Named> {
    let e = |follows: &[u8]| [plan_e().file(), follows.to_vec()].concat();
    let seven = [0, 2, 0, 2, 0, 2, 0, 1, 0, 1, 0, 1, 0, 1, 255];
    let late = [
        [0, 2].repeat(10),
        vec![255, 255, 0, 2, 0, 1],
        vec![0; 2 * 997],
    ]
    .concat();
    vec![
        ("plan E without speeds", e(&[])),
        ("plan E and an odd byte", e(&[2])),
        ("plan E, seven speeds and an odd byte", e(&seven)),
        (
            "plan E and speeds above the rate",
            e(&[0, 3, 0, 2, 255, 255, 0, 2, 1, 0, 2, 0, 0, 2]),
        ),
        ("plan E and bytes of 0xFF", e(&[255; 5])),
        (
            "plan E and speeds below the floor",
            e(&[0, 0, 0, 2, 0, 0, 0, 0]),
        ),
        (
            "plan E and a thousand speeds after its last deadline",
            e(&late),
        ),
    ]
}
