//! The data area of the variables: pairs of a name and a stored value, an ending 0x00, and padding.

use crate::{value, Refusal};
use std::collections::HashSet;

/// The bytes of the longest variable name.
pub const LONGEST_NAME: usize = 31;

/// One pair, with its value decoded and also as it is stored.
#[derive(Debug, Clone, PartialEq, Eq)]
pub struct Pair {
    pub name: Vec<u8>,
    pub value: Vec<u8>,
    pub stored: Vec<u8>,
}

impl Pair {
    /// A new pair with its value in canonical form.
    pub fn canonical(name: &[u8], value: &[u8]) -> Pair {
        Pair {
            name: name.to_vec(),
            value: value.to_vec(),
            stored: value::encode(value),
        }
    }

    /// The bytes the pair takes, from its name through its 0x00.
    pub fn size(&self) -> usize {
        self.name.len() + self.stored.len() + 2
    }
}

/// Tells whether a byte may stand in a variable name.
pub fn is_name_byte(byte: u8) -> bool {
    matches!(byte, 0x21..=0x7E) && !byte.is_ascii_uppercase() && !b"/\\:[]@=".contains(&byte)
}

/// Where the first wrong byte of a name is: its index, 0 for an empty name, 31 for one too long and good so far.
pub fn first_wrong(name: &[u8]) -> Option<usize> {
    if name.is_empty() {
        return Some(0);
    }
    let mut bytes = name.iter().enumerate();
    bytes
        .find(|&(index, &byte)| index == LONGEST_NAME || !is_name_byte(byte))
        .map(|(index, _)| index)
}

/// Checks a caller's variable name.
pub fn check_name(name: &[u8]) -> Result<(), Refusal> {
    match first_wrong(name) {
        Some(index) => Err(Refusal::at(11, index)),
        None => Ok(()),
    }
}

/// Parses a data area that starts at the given offset of the image.
pub fn parse(area: &[u8], start: usize) -> Result<Vec<Pair>, Refusal> {
    let mut pairs = Vec::new();
    let mut seen = HashSet::new();
    let mut at = 0;
    loop {
        match area.get(at) {
            None => return Err(Refusal::at(7, start + area.len())),
            Some(0) => return Ok(pairs),
            Some(_) => {}
        }
        let name = parse_name(area, start, at)?;
        let (value, after) = parse_value(area, start, at + name.len() + 1)?;
        if !seen.insert(name) {
            return Err(Refusal::at(10, start + at));
        }
        pairs.push(Pair {
            name: name.to_vec(),
            value,
            stored: area[at + name.len() + 1..after - 1].to_vec(),
        });
        at = after;
    }
}

/// Parses the name that begins at `at`: what stands before the `=`, or all that is left of the area if there is none.
fn parse_name(area: &[u8], start: usize, at: usize) -> Result<&[u8], Refusal> {
    let left = &area[at..];
    let equals = left.iter().position(|&byte| byte == b'=');
    let name = &left[..equals.unwrap_or(left.len())];
    match (first_wrong(name), equals) {
        (Some(index), _) => Err(Refusal::at(8, start + at + index)),
        (None, Some(_)) => Ok(name),
        (None, None) => Err(Refusal::at(7, start + area.len())),
    }
}

/// Parses the value that begins at `at`, and answers it with the position after its 0x00.
fn parse_value(area: &[u8], start: usize, at: usize) -> Result<(Vec<u8>, usize), Refusal> {
    let cut = Refusal::at(7, start + area.len());
    let mut value = Vec::new();
    let mut at = at;
    loop {
        match *area.get(at).ok_or(cut)? {
            0x00 => return Ok((value, at + 1)),
            0xFF => {
                let escape = *area.get(at + 1).ok_or(cut)?;
                let length = usize::from(escape & 0x7F);
                if length == 0 {
                    return Err(Refusal::at(9, start + at + 1));
                }
                let repeated = if escape & 0x80 == 0 { 0x00 } else { 0xFF };
                value.resize(value.len() + length, repeated);
                at += 2;
            }
            byte => {
                value.push(byte);
                at += 1;
            }
        }
    }
}

/// Prints pairs, the ending 0x00 and padding of 0x00 to the given length, or nothing if they exceed it.
pub fn print(pairs: &[Pair], length: usize) -> Option<Vec<u8>> {
    let used: usize = pairs.iter().map(Pair::size).sum();
    if used + 1 > length {
        return None;
    }
    let mut area = Vec::with_capacity(length);
    for pair in pairs {
        area.extend_from_slice(&pair.name);
        area.push(b'=');
        area.extend_from_slice(&pair.stored);
        area.push(0);
    }
    area.resize(length, 0);
    Some(area)
}
