//! The arguments of a call: how each goes to the driver, and how it is shown.

use std::borrow::Cow;
use std::fmt;

use crate::part::Part;
use crate::shape::{Lead, Note};

/// An argument of a call.
pub enum Argument<'a> {
    Number(u32),
    Place(u64),
    Bytes(&'a [u8]),
    Rows(&'a [u32]),
    Lead(&'a Lead),
    Image(Option<&'a [u32]>),
}

impl<'a> Argument<'a> {
    /// The numbers that the driver takes for it: a place is two, low half first, the bytes of a note are four, and of an image it takes
    /// whether it is the rows once more.
    pub fn numbers(&self) -> Vec<u32> {
        match self {
            Argument::Number(number) => vec![*number],
            Argument::Place(place) => vec![*place as u32, (place >> 32) as u32],
            Argument::Bytes(_) | Argument::Rows(_) => Vec::new(),
            Argument::Image(image) => vec![u32::from(image.is_none())],
            Argument::Lead(lead) => {
                let mut bytes = Vec::new();
                lead.note.put(&mut bytes);
                <[u32; 4]>::take(&mut bytes.as_slice()).map_or(Vec::new(), Vec::from)
            }
        }
    }

    pub fn bytes(&self) -> Option<Cow<'a, [u8]>> {
        match self {
            Argument::Number(_) | Argument::Place(_) | Argument::Image(_) => None,
            Argument::Bytes(bytes) => Some(Cow::Borrowed(bytes)),
            Argument::Rows(rows) => Some(rows.iter().flat_map(|entry| entry.to_le_bytes()).collect()),
            Argument::Lead(lead) => Some(Cow::Borrowed(&lead.area)),
        }
    }

    /// Its name and what it is, as it stands in the line of a difference.
    pub fn show(&self, name: &str, out: &mut fmt::Formatter) -> fmt::Result {
        match self {
            Argument::Number(row) if name == "row" => write!(out, " row {row:#05x}"),
            Argument::Number(value) if name == "value" => write!(out, " value {value:#x}"),
            Argument::Number(number) => write!(out, " {name} {number}"),
            Argument::Place(place) => write!(out, " {name} {place}"),
            Argument::Image(None) => write!(out, " {name} the same rows"),
            Argument::Image(Some(image)) => write!(out, " {name} {} rows", image.len()),
            Argument::Bytes(bytes) => write!(out, " {name} {}", hex(bytes)),
            Argument::Rows(rows) => write!(out, " {name} {}", entries(rows)),
            Argument::Lead(Lead { note, area }) => {
                let Note { counted, least, part } = note;
                let (part, area) = (hex(part), hex(area));
                write!(out, " counted {counted} least {least} part {part} area {area}")
            }
        }
    }
}

impl From<&u32> for Argument<'_> {
    fn from(number: &u32) -> Self {
        Argument::Number(*number)
    }
}

impl From<&u64> for Argument<'_> {
    fn from(place: &u64) -> Self {
        Argument::Place(*place)
    }
}

impl<'a> From<&'a Option<Vec<u32>>> for Argument<'a> {
    fn from(image: &'a Option<Vec<u32>>) -> Self {
        Argument::Image(image.as_deref())
    }
}

impl<'a> From<&'a Vec<u8>> for Argument<'a> {
    fn from(bytes: &'a Vec<u8>) -> Self {
        Argument::Bytes(bytes)
    }
}

impl<'a> From<&'a Vec<u32>> for Argument<'a> {
    fn from(rows: &'a Vec<u32>) -> Self {
        Argument::Rows(rows)
    }
}

impl<'a> From<&'a Lead> for Argument<'a> {
    fn from(lead: &'a Lead) -> Self {
        Argument::Lead(lead)
    }
}

/// Bytes for the line of a difference: all of them, or of many the first. The same seed makes the same bytes again.
fn hex(bytes: &[u8]) -> String {
    let shown = bytes.len().min(67);
    let list: Vec<String> = bytes[..shown].iter().map(|byte| format!("{byte:02X}")).collect();
    let more = if shown < bytes.len() { " ..." } else { "" };
    format!("{} bytes [{}{more}]", bytes.len(), list.join(" "))
}

/// Listed rows or report entries, in the same way.
fn entries(list: &[u32]) -> String {
    let shown = list.len().min(40);
    let first: Vec<String> = list[..shown].iter().map(|number| format!("{number:#x}")).collect();
    let more = if shown < list.len() { " ..." } else { "" };
    format!("{} entries [{}{more}]", list.len(), first.join(" "))
}
