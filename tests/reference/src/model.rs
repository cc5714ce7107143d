//! The reference model: the data area's length and a list of entries, which sees only the calls.

use crate::{value, Refusal};

/// A variable of the reference model; the size counts the pair's bytes from its name through its 0x00.
#[derive(Debug, Clone, PartialEq, Eq)]
pub struct Entry {
    pub name: Vec<u8>,
    pub value: Vec<u8>,
    pub size: usize,
}

/// The area's length, which stays, and the entries in order.
#[derive(Debug, Clone, PartialEq, Eq)]
pub struct Model {
    pub room: usize,
    pub entries: Vec<Entry>,
}

/// A call as the reference model is fed it.
#[derive(Debug, Clone, PartialEq, Eq)]
pub enum Call {
    Set { name: Vec<u8>, value: Vec<u8> },
    Remove { name: Vec<u8> },
    Normalize,
    Read { name: Vec<u8>, buffer: Vec<u8> },
    Count,
}

/// What a call answers; the buffer is the caller's after a read, and empty after other calls.
#[derive(Debug, Clone, Default, PartialEq, Eq)]
pub struct Answer {
    pub code: u32,
    pub offset: usize,
    pub amount: usize,
    pub buffer: Vec<u8>,
}

impl Answer {
    /// An answer with the code alone; each code of the reference model but 11 has offset 0.
    fn code(code: u32) -> Answer {
        Answer {
            code,
            ..Answer::default()
        }
    }

    /// The answer 11 with the index of the name's first wrong byte.
    fn bad_name(index: usize) -> Answer {
        Answer {
            code: 11,
            offset: index,
            ..Answer::default()
        }
    }

    /// The answer 0 with an amount.
    fn amount(amount: usize) -> Answer {
        Answer {
            amount,
            ..Answer::default()
        }
    }
}

impl Model {
    /// The reference model of an image's variables at the start of a list of calls.
    pub fn of_image(image: &[u8]) -> Result<Model, Refusal> {
        let (range, pairs) = crate::variables(image)?;
        let entries = pairs
            .into_iter()
            .map(|pair| Entry {
                size: pair.size(),
                name: pair.name,
                value: pair.value,
            })
            .collect();
        Ok(Model {
            room: range.len(),
            entries,
        })
    }

    /// Makes one call and answers it.
    pub fn step(&mut self, call: &Call) -> Answer {
        match call {
            Call::Set { name, value } => self.set(name, value),
            Call::Remove { name } => self.remove(name),
            Call::Normalize => self.normalize(),
            Call::Read { name, buffer } => self.read(name, buffer),
            Call::Count => Answer::amount(self.entries.len()),
        }
    }

    /// The bytes of all pairs and of the ending 0x00.
    pub fn used(&self) -> usize {
        self.entries.iter().map(|entry| entry.size).sum::<usize>() + 1
    }

    fn position(&self, name: &[u8]) -> Option<usize> {
        self.entries.iter().position(|entry| entry.name == name)
    }

    fn set(&mut self, name: &[u8], value: &[u8]) -> Answer {
        if let Some(index) = wrong_index(name) {
            return Answer::bad_name(index);
        }
        let position = self.position(name);
        let size = new_size(name, value);
        let old_size = position.map_or(0, |at| self.entries[at].size);
        if self.used() - old_size + size > self.room {
            return Answer::code(13);
        }
        let entry = Entry {
            name: name.to_vec(),
            value: value.to_vec(),
            size,
        };
        match position {
            Some(at) => self.entries[at] = entry,
            None => self.entries.push(entry),
        }
        Answer::code(0)
    }

    fn remove(&mut self, name: &[u8]) -> Answer {
        if let Some(index) = wrong_index(name) {
            return Answer::bad_name(index);
        }
        match self.position(name) {
            None => Answer::code(12),
            Some(at) => {
                self.entries.remove(at);
                Answer::code(0)
            }
        }
    }

    fn normalize(&mut self) -> Answer {
        for entry in &mut self.entries {
            entry.size = new_size(&entry.name, &entry.value);
        }
        Answer::code(0)
    }

    fn read(&self, name: &[u8], lent: &[u8]) -> Answer {
        let mut buffer = lent.to_vec();
        let answer = self.read_into(name, &mut buffer);
        Answer { buffer, ..answer }
    }

    /// Reads a variable into the buffer, and answers all but the buffer.
    fn read_into(&self, name: &[u8], buffer: &mut [u8]) -> Answer {
        if let Some(index) = wrong_index(name) {
            return Answer::bad_name(index);
        }
        let Some(at) = self.position(name) else {
            return Answer::code(12);
        };
        let value = &self.entries[at].value;
        if buffer.len() < value.len() {
            return Answer::code(14);
        }
        buffer[..value.len()].copy_from_slice(value);
        Answer::amount(value.len())
    }
}

/// Where a name breaks the name rule, written out again from the allowed bytes so that it is apart from the parser's.
pub fn wrong_index(name: &[u8]) -> Option<usize> {
    const ALLOWED: &[u8; 61] = b"!\"#$%&'()*+,-.0123456789;<>?^_`abcdefghijklmnopqrstuvwxyz{|}~";
    let good = name.iter().take_while(|byte| ALLOWED.contains(byte));
    match good.count() {
        all @ 1..=31 if all == name.len() => None,
        good => Some(good.min(31)),
    }
}

/// The bytes of a pair whose value is in canonical form, counted without writing it.
pub fn new_size(name: &[u8], value: &[u8]) -> usize {
    let mut size = name.len() + 2;
    let mut run = 0;
    for (at, &byte) in value.iter().enumerate() {
        run = if at > 0 && value[at - 1] == byte {
            run + 1
        } else {
            1
        };
        let escaped = byte == 0x00 || byte == 0xFF;
        size += match (escaped, run % 127) {
            (false, _) => 1,
            (true, 1) => 2,
            (true, _) => 0,
        };
    }
    size
}

/// The canonical form of an area of the given length with the given entries.
pub fn canonical_area(room: usize, entries: &[Entry]) -> Vec<u8> {
    let mut area = Vec::with_capacity(room);
    for entry in entries {
        area.extend_from_slice(&entry.name);
        area.push(b'=');
        area.extend(value::encode(&entry.value));
        area.push(0);
    }
    area.push(0);
    assert!(area.len() <= room, "the entries exceed the area");
    area.resize(room, 0);
    area
}
