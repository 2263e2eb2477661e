//! What is said alike of plan files and of job lists that are wrong.

use crate::encoding::{LEAST_NAME_BYTE, MOST_NAME_BYTE};

// The bounds of the edition.
pub(crate) const MOST_JOBS: u64 = 32;
pub(crate) const MOST_DEADLINE: u64 = 100_000;
pub(crate) const MOST_SIZE: u64 = 100_000_000;

// How many bytes of a long value are shown.
const MOST_SHOWN: usize = 60;

// A number with a comma after each thousand.
pub(crate) fn grouped(number: u64) -> String {
    if number < 1_000 { number.to_string() } else { format!("{},{:03}", grouped(number / 1_000), number % 1_000) }
}

pub(crate) fn bytes(many: usize) -> String {
    format!("{} byte{}", grouped(many as u64), if many == 1 { "" } else { "s" })
}

// What does not hold of several things that are tested together.
pub(crate) fn broken<const N: usize>(rules: [(bool, String); N]) -> String {
    let words: Vec<String> = rules.into_iter().filter(|(holds, _)| !holds).map(|(_, words)| words).collect();
    words.join("; ")
}

// The bytes that stand somewhere, the first of them if they are many; one that no text shows is written as its number.
pub(crate) fn shown(value: &[u8]) -> String {
    let first: String = value.iter().take(MOST_SHOWN).map(|&byte| shown_byte(byte)).collect();
    if value.len() <= MOST_SHOWN { format!("`{first}`") } else { format!("`{first}..` ({})", bytes(value.len())) }
}

fn shown_byte(byte: u8) -> String {
    match byte {
        b' '..=b'~' => char::from(byte).to_string(),
        _ => format!("\\x{byte:02X}"),
    }
}

fn is_name_byte(byte: &u8) -> bool {
    (LEAST_NAME_BYTE..=MOST_NAME_BYTE).contains(byte)
}

pub(crate) fn name_byte_words(name: &[u8]) -> String {
    let wrong: Vec<String> = name.iter().filter(|byte| !is_name_byte(byte)).map(|byte| format!("{byte:#04X}")).collect();
    format!(
        "the name is {}, with {}: the bytes of a name are from {LEAST_NAME_BYTE:#04X} to {MOST_NAME_BYTE:#04X}",
        shown(name),
        wrong.join(" and ")
    )
}

// What does not hold of a job's release, size and deadline: each as it is shown, and whether each rule holds of them.
pub(crate) fn bounds_words([release, size, deadline]: [String; 3], [in_order, size_holds, deadline_holds]: [bool; 3]) -> String {
    broken([
        (in_order, format!("the release is {release} and the deadline {deadline}: the release must come before the deadline")),
        (size_holds, format!("the size is {size}, and must be from 1 to {}", grouped(MOST_SIZE))),
        (deadline_holds, format!("the deadline is {deadline}, and must be at most {}", grouped(MOST_DEADLINE))),
    ])
}
