// The room for the texts of all objects: of actions, names and patterns of file groups, names of templates, and names
// that auto-apply quotas exclude.
use crate::line::Refusal::{self, Named};

const MOST_TEXT_BYTES: usize = 4_194_304;

pub struct Room {
    taken: usize,
}

impl Room {
    pub fn new() -> Room {
        Room { taken: 0 }
    }

    // Whether so many bytes fit in place of others.
    pub fn judge(&self, before: usize, now: usize) -> Result<(), Refusal> {
        (self.taken - before + now <= MOST_TEXT_BYTES).then_some(()).ok_or(Named("TextsFull"))
    }

    // Takes them.
    pub fn replace(&mut self, before: usize, now: usize) -> Result<(), Refusal> {
        self.judge(before, now)?;
        self.taken = self.taken - before + now;
        Ok(())
    }

    // Takes so many bytes, which fit.
    pub fn take(&mut self, bytes: usize) {
        self.taken += bytes;
    }

    pub fn give_back(&mut self, bytes: usize) {
        self.taken -= bytes;
    }
}
