//! The stored bytes of a value: escapes for runs of 0x00 and of 0xFF, and all other bytes as they are.

/// The longest run that one escape holds.
pub const LONGEST_RUN: usize = 127;

/// Tells whether a byte stands in a value only as an escape.
fn is_escaped(byte: u8) -> bool {
    byte == 0x00 || byte == 0xFF
}

/// The canonical form of a value.
pub fn encode(value: &[u8]) -> Vec<u8> {
    let mut stored = Vec::with_capacity(value.len());
    for run in value.chunk_by(|&a, &b| a == b || !(is_escaped(a) || is_escaped(b))) {
        let mark = match run[0] {
            0x00 => 0x00,
            0xFF => 0x80,
            _ => {
                stored.extend_from_slice(run);
                continue;
            }
        };
        for part in run.chunks(LONGEST_RUN) {
            stored.extend([0xFF, mark | part.len() as u8]);
        }
    }
    stored
}

/// The value that stored bytes stand for, or nothing if they stand for none.
pub fn decode(stored: &[u8]) -> Option<Vec<u8>> {
    let mut value = Vec::with_capacity(stored.len());
    let mut bytes = stored.iter();
    while let Some(&byte) = bytes.next() {
        match byte {
            0x00 => return None,
            0xFF => {
                let escape = *bytes.next()?;
                let length = usize::from(escape & 0x7F);
                if length == 0 {
                    return None;
                }
                let repeated = if escape & 0x80 == 0 { 0x00 } else { 0xFF };
                value.resize(value.len() + length, repeated);
            }
            _ => value.push(byte),
        }
    }
    Some(value)
}
