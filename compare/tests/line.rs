//! The model's files, and what they rest on, go in one line from the row up: none uses one that comes after it.

use std::fs;

const LINE: [&str; 28] = [
    "part",
    "shape",
    "given",
    "call",
    "fault",
    "ladder",
    "row",
    "code",
    "wear",
    "locks",
    "tallies",
    "keys",
    "permission",
    "model",
    "access",
    "latches",
    "form",
    "jobs",
    "early",
    "lead",
    "make",
    "reader",
    "mending",
    "repair",
    "card_sizes",
    "card",
    "card_job",
    "calls",
];

/// The files of this package that a file names.
fn named(text: &str) -> impl Iterator<Item = &str> {
    text.split("crate::").skip(1).map(|after| {
        after
            .split(|c: char| !c.is_alphanumeric() && c != '_')
            .next()
            .unwrap_or_default()
    })
}

#[test]
fn no_file_of_the_model_uses_a_later_one() {
    for (place, file) in LINE.iter().enumerate() {
        let path = format!("{}/src/{file}.rs", env!("CARGO_MANIFEST_DIR"));
        let text = fs::read_to_string(&path).expect("a file of the line");
        for used in named(&text) {
            assert!(LINE[..=place].contains(&used), "{file}.rs uses {used}");
        }
    }
}
