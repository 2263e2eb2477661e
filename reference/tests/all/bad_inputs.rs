//! The bad inputs of `runplan`: what each is answered, by hand.

use reference::generate::bad_inputs;
use reference::program::runplan;

/// The first line of what is printed for each input, and how many lines there are.
const PRINTED: [(&str, usize); 27] = [
    ("refused 1", 1),
    ("refused 1", 1),
    ("refused 2", 1),
    ("refused 2", 1),
    ("refused 2", 1),
    ("refused 1", 1),
    ("refused 1", 1),
    ("refused 2", 1),
    ("refused 2", 1),
    ("refused 2", 1),
    ("refused 4", 1),
    ("refused 4", 1),
    ("refused 2", 1),
    ("refused 2", 1),
    ("refused 2", 1),
    ("refused 2", 1),
    ("refused 2", 1),
    ("refused 2", 1),
    ("refused 11", 1),
    ("refused 16", 1),
    ("slot speed mode grants", 4),
    ("slot speed mode grants", 5),
    ("slot speed mode grants", 12),
    ("slot speed mode grants", 11),
    ("slot speed mode grants", 7),
    ("slot speed mode grants", 8),
    ("slot speed mode grants", 1_014),
];

#[test]
fn each_bad_input_is_answered() {
    let inputs = bad_inputs();
    assert_eq!(inputs.len(), PRINTED.len());
    for ((name, input), (first, count)) in inputs.iter().zip(PRINTED) {
        let printed = String::from_utf8(runplan(input)).unwrap();
        assert_eq!(printed.lines().next(), Some(first), "{}", name);
        assert_eq!(printed.lines().count(), count, "{}", name);
    }
}
