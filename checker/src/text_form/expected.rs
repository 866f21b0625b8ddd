//! The lines that a text expects.

use std::fmt;

/// A line that a text says is printed.
#[derive(Clone, Debug, PartialEq, Eq)]
pub struct Expected {
    /// The line of the text that says so, from 1.
    pub line: usize,
    /// Which line is printed so: 0 for the card, then one a call.
    pub answer: usize,
    /// The words, one blank between.
    pub text: String,
}

/// An expected line that was not printed.
#[derive(Clone, Debug, PartialEq, Eq)]
pub struct Unmet {
    pub expected: Expected,
    /// What was printed, if anything.
    pub printed: Option<String>,
}

impl fmt::Display for Unmet {
    fn fmt(&self, f: &mut fmt::Formatter<'_>) -> fmt::Result {
        let Expected { line, text, .. } = &self.expected;
        write!(f, "line {line}: expected {}, ", text.escape_debug())?;
        match &self.printed {
            Some(printed) => write!(f, "printed {}", printed.escape_debug()),
            None => write!(f, "printed nothing"),
        }
    }
}

/// The expectations that the printed lines do not meet.
pub fn unmet<Line: AsRef<str>>(expected: &[Expected], printed: &[Line]) -> Vec<Unmet> {
    let one = |expected: &Expected| {
        let printed = printed.get(expected.answer).map(AsRef::as_ref);
        (printed != Some(&expected.text)).then(|| Unmet {
            expected: expected.clone(),
            printed: printed.map(str::to_string),
        })
    };
    expected.iter().filter_map(one).collect()
}
