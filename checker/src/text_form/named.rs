//! The named values of an item.

use std::iter::Peekable;

use super::line::{choice, Word};
use super::value::{self, Number};
use super::words::Form;
use super::TextError;

/// A name and, unless the line ends before, the word for its value.
struct Entry<'a> {
    name: Word<'a>,
    value: Option<Word<'a>>,
}

/// The words of an item by their names. The item's own word comes first.
pub struct Named<'a> {
    item: Word<'a>,
    entries: Vec<Entry<'a>>,
}

impl<'a> Named<'a> {
    /// Each name of the form at most once, with its value.
    pub fn new(item: Word<'a>, words: &[Word<'a>], form: &Form) -> Result<Named<'a>, TextError> {
        let mut words = words.iter().copied().peekable();
        let mut named = Named {
            item,
            entries: Vec::new(),
        };
        if form.numbered {
            let value = value_word(&mut words, form);
            named.entries.push(Entry { name: item, value });
        }
        while let Some(name) = words.next() {
            let value = if form.names.contains(&name.text) {
                value_word(&mut words, form)
            } else if form.marks.contains(&name.text) {
                None
            } else {
                return Err(name.unexpected(&[form.marks, form.names].concat()));
            };
            if named.entry(name.text).is_some() {
                return Err(name.error(format!("{name} stands on the line twice")));
            }
            named.entries.push(Entry { name, value });
        }
        Ok(named)
    }

    fn entry(&self, name: &str) -> Option<&Entry<'a>> {
        self.entries.iter().find(|entry| entry.name.text == name)
    }

    pub fn has(&self, name: &str) -> bool {
        self.entry(name).is_some()
    }

    /// The one of these names that stands on the line.
    pub fn one_of(&self, names: &[&str]) -> Result<&'a str, TextError> {
        let names_one = |entry: &&Entry| names.contains(&entry.name.text);
        let mut found = self.entries.iter().filter(names_one);
        let first = found.next().ok_or_else(|| self.missing(names))?.name;
        match found.next().map(|entry| entry.name) {
            Some(other) => Err(other.error(format!("{other} stands beside {first}"))),
            None => Ok(first.text),
        }
    }

    /// An error at this name.
    pub fn error(&self, name: &str, message: &str) -> TextError {
        let entry = self.entry(name);
        entry
            .map_or(self.item, |entry| entry.name)
            .error(message.to_string())
    }

    /// None of these names stands on the line.
    fn missing(&self, names: &[&str]) -> TextError {
        let message = format!("{} lacks {}", self.item, choice(names));
        self.item.error(message)
    }

    /// The word that gives the value.
    fn word(&self, name: &str, range: String) -> Result<Word<'a>, TextError> {
        let entry = self.entry(name).ok_or_else(|| self.missing(&[name]))?;
        let ends = || entry.name.error(format!("{name} takes {range}"));
        entry.value.ok_or_else(ends)
    }

    /// Whether the value of this name is the word.
    pub fn is(&self, name: &str, word: &str) -> bool {
        let value = self.entry(name).and_then(|entry| entry.value);
        value.is_some_and(|value| value.text == word)
    }

    pub fn number<T: Number>(&self, name: &str) -> Result<T, TextError> {
        let word = self.word(name, value::range::<T>())?;
        value::number(name, word)
    }

    pub fn set<T: Number>(&self, name: &str, full: T) -> Result<T, TextError> {
        let word = self.word(name, value::set_range::<T>())?;
        value::set(name, word, full)
    }

    /// The full set where the name is not there.
    pub fn set_or_full<T: Number>(&self, name: &str, full: T) -> Result<T, TextError> {
        if self.has(name) {
            self.set(name, full)
        } else {
            Ok(full)
        }
    }
}

/// The next word as a value. A word of the form is left to be read as a name,
/// too.
fn value_word<'a>(
    words: &mut Peekable<impl Iterator<Item = Word<'a>>>,
    form: &Form,
) -> Option<Word<'a>> {
    let value = words.next_if(|word| !form.has(word.text));
    value.or_else(|| words.peek().copied())
}
