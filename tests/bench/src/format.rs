//! The few parts of the format that the inputs are made with.

use std::ops::Range;

/// The size of a block and of a header in bytes.
pub const BLOCK: usize = 16;

/// The bytes that a name may hold.
pub fn alphabet() -> Vec<u8> {
    (0x21..=0x7E_u8)
        .filter(|byte| !byte.is_ascii_uppercase() && !b"/\\:[]@=".contains(byte))
        .collect()
}

/// One header with its checksum.
pub fn header(signature: u8, blocks: usize, name: &[u8]) -> [u8; BLOCK] {
    let mut bytes = [0; BLOCK];
    bytes[0] = signature;
    bytes[2] = (blocks >> 8) as u8;
    bytes[3] = blocks as u8;
    bytes[4..4 + name.len()].copy_from_slice(name);
    let sum: usize = bytes.iter().map(|&byte| usize::from(byte)).sum();
    bytes[1] = if sum == 0 {
        0
    } else {
        ((sum - 1) % 255 + 1) as u8
    };
    bytes
}

/// An image of `blocks` blocks: `common` with these pairs, then one block of free space.
pub fn image(blocks: usize, pairs: &[u8]) -> Vec<u8> {
    let mut image = header(0x70, blocks - 1, b"common").to_vec();
    image.extend_from_slice(pairs);
    let end = (blocks - 1) * BLOCK;
    assert!(
        image.len() < end,
        "the pairs and the ending 0x00 fit in the area"
    );
    image.resize(end, 0);
    image.extend_from_slice(&header(0x7F, 1, &[0x77; 12]));
    image
}

/// The bytes of one pair, its value in canonical form.
pub fn pair(name: &[u8], value: &[u8]) -> Vec<u8> {
    let mut bytes = name.to_vec();
    bytes.push(b'=');
    let mut at = 0;
    while at < value.len() {
        let run = run_length(&value[at..]);
        match value[at] {
            0x00 => bytes.extend_from_slice(&[0xFF, run as u8]),
            0xFF => bytes.extend_from_slice(&[0xFF, 0x80 | run as u8]),
            plain => bytes.push(plain),
        }
        at += run;
    }
    bytes.push(0);
    bytes
}

/// How many bytes at the start one byte or one escape of the canonical form stands for.
fn run_length(value: &[u8]) -> usize {
    match value[0] {
        byte @ (0x00 | 0xFF) => value
            .iter()
            .take(127)
            .take_while(|&&next| next == byte)
            .count(),
        _ => 1,
    }
}

/// The signature and the name of the last partition.
pub fn last_partition(image: &[u8]) -> (u8, Vec<u8>) {
    let (mut at, mut last) = (0, 0);
    while at < image.len() {
        last = at;
        at += usize::from(image[at + 2]) << 12 | usize::from(image[at + 3]) << 4;
    }
    (image[last], image[last + 4..last + BLOCK].to_vec())
}

/// The data area of the first partition with signature 0x70 and name `common`.
pub fn area(image: &[u8]) -> Option<Range<usize>> {
    let mut at = 0;
    while at < image.len() {
        let bytes = usize::from(image[at + 2]) << 12 | usize::from(image[at + 3]) << 4;
        if image[at] == 0x70 && image[at + 4..at + BLOCK].starts_with(b"common\0") {
            return Some(at + BLOCK..at + bytes);
        }
        at += bytes;
    }
    None
}

/// The places of the pairs in an area, each from its name through its 0x00.
pub fn pairs(area: &[u8]) -> Vec<Range<usize>> {
    let mut found = Vec::new();
    let mut start = 0;
    while area[start] != 0 {
        let mut at = start;
        while area[at] != 0 {
            at += if area[at] == 0xFF { 2 } else { 1 };
        }
        found.push(start..at + 1);
        start = at + 1;
    }
    found
}

/// The name and the decoded value of a stored pair.
pub fn decode(pair: &[u8]) -> (Vec<u8>, Vec<u8>) {
    let equals = pair
        .iter()
        .position(|&byte| byte == b'=')
        .expect("a pair has =");
    let mut value = Vec::new();
    let mut at = equals + 1;
    while pair[at] != 0 {
        if pair[at] == 0xFF {
            let run = pair[at + 1];
            let byte = if run & 0x80 == 0 { 0x00 } else { 0xFF };
            value.resize(value.len() + usize::from(run & 0x7F), byte);
            at += 2;
        } else {
            value.push(pair[at]);
            at += 1;
        }
    }
    (pair[..equals].to_vec(), value)
}

/// The pair with every run split into one repetition and the others.
pub fn split_runs(pair: &[u8]) -> Vec<u8> {
    let mut bytes = Vec::new();
    let mut at = 0;
    while at < pair.len() {
        bytes.push(pair[at]);
        if pair[at] == 0xFF {
            let (kind, count) = (pair[at + 1] & 0x80, pair[at + 1] & 0x7F);
            if count > 1 {
                bytes.extend_from_slice(&[kind | 1, 0xFF]);
            }
            bytes.push(kind | count.saturating_sub(1).max(1));
            at += 1;
        }
        at += 1;
    }
    bytes
}
