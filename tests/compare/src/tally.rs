//! How often the library answered each code, and at how many offsets.

use std::collections::{BTreeSet, HashSet};

/// The codes that the library may answer.
pub const CODES: [u32; 15] = [0, 1, 2, 3, 4, 6, 7, 8, 9, 10, 11, 12, 13, 14, 20];

/// The code whose offset is an index in the caller's name.
const BAD_NAME: u32 = 11;

/// The codes whose offset is that of a header, of a byte in a data area, or of a byte in the caller's name.
const WITH_OFFSET: [u32; 9] = [2, 3, 4, 7, 8, 9, 10, BAD_NAME, 20];

/// The number of different offsets wanted of each such code but 11.
const FEWEST_OFFSETS: usize = 40;

/// The greatest offset of 11, the index of the byte past a longest name; each one from 0 to it is wanted.
const LAST_INDEX: usize = 31;

/// The counts of one case or of a whole run.
#[derive(Default)]
pub struct Tally {
    codes: [u64; CODES.len()],
    others: BTreeSet<u32>,
    offsets: HashSet<(u32, usize)>,
}

impl Tally {
    /// Counts an answer of the library.
    pub fn add(&mut self, code: u32, offset: usize) {
        match CODES.iter().position(|&known| known == code) {
            Some(place) => self.codes[place] += 1,
            None => {
                self.others.insert(code);
            }
        }
        if WITH_OFFSET.contains(&code) {
            self.offsets.insert((code, offset));
        }
    }

    /// Adds the counts of another tally.
    pub fn merge(&mut self, other: Tally) {
        for (sum, count) in self.codes.iter_mut().zip(other.codes) {
            *sum += count;
        }
        self.others.extend(other.others);
        self.offsets.extend(other.offsets);
    }

    /// Each code with the number of answers that had it.
    fn counts(&self) -> impl Iterator<Item = (u32, u64)> + '_ {
        CODES.into_iter().zip(self.codes)
    }

    /// The number of different offsets a code was met at.
    fn offsets_of(&self, code: u32) -> usize {
        self.offsets.iter().filter(|seen| seen.0 == code).count()
    }

    /// Tells whether a code was met at the offsets that are wanted of it.
    fn enough(&self, code: u32) -> bool {
        match code {
            BAD_NAME => (0..=LAST_INDEX).all(|index| self.offsets.contains(&(code, index))),
            _ => self.offsets_of(code) >= FEWEST_OFFSETS,
        }
    }

    /// The codes that a run lacks or should not have, or nothing.
    pub fn lacking(&self) -> Option<String> {
        let unmet = self.counts().filter(|(_, count)| *count == 0);
        let unmet: Vec<u32> = unmet.map(|(code, _)| code).collect();
        let few = WITH_OFFSET.into_iter().filter(|&code| !self.enough(code));
        let few: Vec<u32> = few.collect();
        if unmet.is_empty() && few.is_empty() && self.others.is_empty() {
            return None;
        }
        Some(format!(
            "  not met: {unmet:?}; met at few offsets: {few:?}; no code of the table: {:?}",
            self.others
        ))
    }

    /// One line with the counts of all codes and one with the numbers of offsets.
    pub fn lines(&self) -> String {
        let codes: Vec<String> = self
            .counts()
            .map(|(code, count)| format!("{code}: {count}"))
            .collect();
        let offsets: Vec<String> = WITH_OFFSET
            .map(|code| format!("{code}: {}", self.offsets_of(code)))
            .to_vec();
        format!(
            "codes met: {}\ndifferent offsets: {}",
            codes.join(", "),
            offsets.join(", ")
        )
    }
}
