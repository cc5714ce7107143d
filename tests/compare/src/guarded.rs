//! Bytes with known bytes before and after them, so that a write outside shows.

const GUARD: usize = 32;
const MARK: u8 = 0xC3;

/// Bytes between two guards.
pub struct Guarded {
    all: Vec<u8>,
}

impl Guarded {
    pub fn new(bytes: &[u8]) -> Guarded {
        let mut guarded = Guarded { all: Vec::new() };
        guarded.load(bytes);
        guarded
    }

    /// Puts other bytes between the guards.
    pub fn load(&mut self, bytes: &[u8]) {
        self.all.clear();
        self.all.reserve(bytes.len() + 2 * GUARD);
        self.all.extend_from_slice(&[MARK; GUARD]);
        self.all.extend_from_slice(bytes);
        self.all.extend_from_slice(&[MARK; GUARD]);
    }

    pub fn bytes(&self) -> &[u8] {
        &self.all[GUARD..self.all.len() - GUARD]
    }

    pub fn bytes_mut(&mut self) -> &mut [u8] {
        let end = self.all.len() - GUARD;
        &mut self.all[GUARD..end]
    }

    /// Tells whether both guards have the bytes they had.
    pub fn intact(&self) -> bool {
        let end = self.all.len() - GUARD;
        self.all[..GUARD] == [MARK; GUARD] && self.all[end..] == [MARK; GUARD]
    }
}
