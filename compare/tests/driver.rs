//! The driver in C knows the calls by their places in the list, and gives each struct as its bytes lie: its own list, and
//! the headers' structs, must be in the same order.

use compare::call::CALLS;
use compare::shape::{Answer, Card, Handed, Key, Note, State};

#[test]
fn the_driver_lists_the_calls_in_the_same_order() {
    let (_, after) = include_str!("../driver.c")
        .split_once("typedef enum {")
        .expect("a list of calls");
    let (list, _) = after.split_once('}').expect("the end of the list");
    let theirs: Vec<String> = list.split(',').map(|call| call.trim().to_lowercase()).collect();
    let ours: Vec<&str> = CALLS.iter().map(|kind| kind.name).collect();
    assert_eq!(theirs, ours);
}

const OTP: &str = include_str!("../../include/otp.h");
const SPLASH: &str = include_str!("../../include/splash.h");

/// The fields of a struct of a header, in its order. What stands between a comment's marks is no field.
fn fields(header: &str, name: &str) -> Vec<String> {
    let code: String = header
        .split("/*")
        .map(|part| part.split_once("*/").map_or(part, |(_, after)| after))
        .collect();
    let (before, _) = code.split_once(&format!("}} {name};")).expect("the struct");
    let (_, list) = before.rsplit_once('{').expect("its fields");
    let field = |line: &str| line.split('[').next()?.split_whitespace().last().map(str::to_string);
    list.split(';').filter_map(field).collect()
}

#[test]
fn the_headers_have_the_fields_in_the_same_order() {
    assert_eq!(fields(OTP, "otp_answer"), Answer::FIELDS);
    assert_eq!(fields(OTP, "otp_key"), Key::FIELDS);
    assert_eq!(fields(OTP, "otp_state"), State::FIELDS);
    assert_eq!(fields(OTP, "otp_note"), Note::FIELDS);
    assert_eq!(fields(OTP, "otp_taken"), ["answer", "note"]);
    assert_eq!(fields(OTP, "otp_entry"), Handed::FIELDS);
    assert_eq!(fields(SPLASH, "otp_card"), Card::FIELDS);
}
