//! The words of one line of text, taken from the front.

use std::iter::Peekable;
use std::ops::RangeInclusive;
use std::str::SplitWhitespace;

pub type Parsed<T> = Result<T, String>;

pub struct Words<'a> {
    left: Peekable<SplitWhitespace<'a>>,
}

impl<'a> Words<'a> {
    pub fn new(told: &'a str) -> Words<'a> {
        Words {
            left: told.split_whitespace().peekable(),
        }
    }

    /// The next word. `what` names it where it is missing.
    pub fn word(&mut self, what: &str) -> Parsed<&'a str> {
        self.left.next().ok_or_else(|| format!("{what} missing"))
    }

    pub fn number(&mut self, what: &str) -> Parsed<u32> {
        self.between(what, 0..=u32::MAX)
    }

    /// A number in digits alone.
    pub fn between(&mut self, what: &str, fits: RangeInclusive<u32>) -> Parsed<u32> {
        let word = self.word(what)?;
        let digits = word.bytes().all(|byte| byte.is_ascii_digit());
        match word.parse() {
            Ok(number) if digits && fits.contains(&number) => Ok(number),
            _ => Err(format!(
                "{what} `{word}` is not a number from {} to {}",
                fits.start(),
                fits.end()
            )),
        }
    }

    pub fn expect(&mut self, wanted: &str) -> Parsed<()> {
        let word = self.word(&format!("`{wanted}`"))?;
        if word == wanted {
            Ok(())
        } else {
            Err(format!("`{wanted}` belongs where `{word}` stands"))
        }
    }

    /// True, and the word is used up, if it comes next.
    pub fn take(&mut self, wanted: &str) -> bool {
        self.left.next_if(|word| *word == wanted).is_some()
    }

    pub fn is_spent(&mut self) -> bool {
        self.left.peek().is_none()
    }

    pub fn end(&mut self) -> Parsed<()> {
        match self.left.next() {
            None => Ok(()),
            Some(word) => Err(format!("nothing belongs where `{word}` stands")),
        }
    }
}
