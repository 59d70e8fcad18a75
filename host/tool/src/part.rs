//! A frame or one of its two fields, as reports name it and as the planes hold it.

use deblock::Part;

/// The two fields of a frame, in the order of a recording.
pub const FIELDS: [Part; 2] = [Part::TopField, Part::BottomField];

/// Of its lines in the planes the first, and how many lines on the next one is.
pub fn lines(part: Part) -> (usize, usize) {
    match part {
        Part::Frame => (0, 1),
        Part::TopField => (0, 2),
        Part::BottomField => (1, 2),
    }
}

/// What a field is called; a frame needs no name.
pub fn name(part: Part) -> Option<&'static str> {
    match part {
        Part::Frame => None,
        Part::TopField => Some("top field"),
        Part::BottomField => Some("bottom field"),
    }
}

/// A line of a report that says which field it is of.
pub fn told(part: Part, line: String) -> String {
    name(part).map(|field| format!("{field}: {line}")).unwrap_or(line)
}
