//! What a call of map, list or map of a part gives back.

use reference::operation::{Lent, LEAST_WORK};
use reference::rng::Rng;

/// The coded answer, and what the call was lent.
#[derive(Clone, PartialEq)]
pub struct Answer {
    pub coded: u64,
    pub output: Vec<u8>,
    pub work: Vec<u64>,
}

impl Answer {
    /// Output and work area as they are before the call.
    pub fn junk(rng: &mut Rng, lent: Lent) -> Answer {
        let output = (0..lent.output).map(|_| rng.word() as u8).collect();
        let work = (0..lent.work).map(|_| rng.word()).collect();
        Answer { coded: 0, output, work }
    }

    /// The stated effect of a call on what it was lent: sheets, or a coded refusal.
    pub fn take(&mut self, result: Result<Vec<u8>, u64>, clears: bool) {
        if clears {
            self.work[..LEAST_WORK].fill(0);
        }
        self.coded = match result {
            Err(refusal) => refusal,
            Ok(sheets) => {
                self.output[..sheets.len()].copy_from_slice(&sheets);
                sheets.len() as u64
            }
        };
    }

    /// Says where the work areas of two answers differ, if they do.
    pub fn other_word(&self, other: &Answer) -> Option<String> {
        let word = (0..self.work.len()).find(|&word| self.work[word] != other.work[word]);
        word.map(|word| format!("work areas differ first in word {word}"))
    }
}
