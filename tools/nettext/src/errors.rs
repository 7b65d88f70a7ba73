//! Everything that is wrong with a text.

use crate::error::Error;

/// So many are told; the others are counted.
const TOLD: usize = 20;

/// Errors, or warnings, in the order in which they are told.
#[derive(Clone, PartialEq, Eq, Debug, Default)]
pub struct Errors {
    told: Vec<Error>,
    more: usize,
}

impl Errors {
    /// One more, which is made only if it is told.
    pub fn add(&mut self, error: impl FnOnce() -> Error) {
        if self.told.len() < TOLD {
            self.told.push(error());
        } else {
            self.more += 1;
        }
    }

    /// Those of another list after these.
    pub fn append(&mut self, other: Errors) {
        for error in other.told {
            self.add(|| error);
        }
        self.more += other.more;
    }

    /// Puts those that are told in the order of their places.
    pub fn in_order(&mut self) {
        self.told.sort_by_key(|error| error.place);
    }

    pub fn is_empty(&self) -> bool {
        self.told.is_empty()
    }

    /// The errors that are told.
    pub fn told(&self) -> &[Error] {
        &self.told
    }

    /// Each error as it is shown, one below the other.
    pub fn shown(&self, name: &str, text: &str) -> String {
        let mut shown: String = self.told.iter().map(|error| error.shown(name, text)).collect();
        if self.more > 0 {
            shown += &format!("and {} more\n", self.more);
        }
        shown
    }

    /// These errors, or the result if there are none.
    pub fn or<T>(self, result: T) -> Result<T, Errors> {
        if self.is_empty() {
            return Ok(result);
        }
        Err(self)
    }
}

impl From<Error> for Errors {
    fn from(error: Error) -> Errors {
        Errors { told: vec![error], more: 0 }
    }
}
