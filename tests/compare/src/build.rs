//! Builders of images, data areas, names and values.

use crate::rng::Rng;
use reference::area;
use reference::header::{header_bytes, padded_name, partitions};

/// The signature and name of the partition with the variables.
pub const COMMON: (u8, &[u8]) = (0x70, b"common");

/// The signatures and names of partitions that are nearly the one with the variables.
pub const NEAR_MISSES: [(u8, &[u8]); 13] = [
    (0x70, b"common-x"),
    (0x70, b"commons"),
    (0x70, b"common\x01"),
    (0x70, b"common-log-1"),
    (0x70, b"commo"),
    (0x70, b"commom"),
    (0x70, b"comm\0on"),
    (0x70, b"\0common"),
    (0x70, b"Common"),
    (0x71, b"common"),
    (0x7F, b"common"),
    (0x00, b"common"),
    (0xF0, b"common\0x"),
];

/// A partition to be built: signature, name, and data area of whole blocks.
#[derive(Clone)]
pub struct Part {
    pub signature: u8,
    pub name: [u8; 12],
    pub data: Vec<u8>,
}

impl Part {
    pub fn new(signature: u8, name: &[u8], data: Vec<u8>) -> Part {
        Part {
            signature,
            name: padded_name(name).expect("a name of at most twelve bytes"),
            data,
        }
    }

    /// The partition of the variables with the given data area.
    pub fn common(data: Vec<u8>) -> Part {
        Part::new(COMMON.0, COMMON.1, data)
    }

    /// Free space with the given number of blocks.
    pub fn free(blocks: usize) -> Part {
        Part::new(0x7F, &[0x77; 12], vec![0; (blocks - 1) * 16])
    }

    /// The length in blocks, header included.
    pub fn blocks(&self) -> usize {
        self.data.len() / 16 + 1
    }

    /// Tells whether the partition is one with the variables.
    pub fn is_common(&self) -> bool {
        self.signature == 0x70 && self.name.starts_with(b"common\0")
    }
}

/// The offsets of the headers of partitions that follow each other from byte 0.
pub fn offsets(parts: &[Part]) -> Vec<usize> {
    let ends = parts.iter().scan(0, |end, part| {
        *end += 16 * part.blocks();
        Some(*end)
    });
    std::iter::once(0).chain(ends).take(parts.len()).collect()
}

/// The offsets of the headers of those that are one with the variables.
pub fn common_offsets(parts: &[Part]) -> Vec<usize> {
    let all = parts.iter().zip(offsets(parts));
    all.filter(|(part, _)| part.is_common())
        .map(|(_, offset)| offset)
        .collect()
}

/// An accepted image of the given partitions.
pub fn image(parts: &[Part]) -> Vec<u8> {
    let mut bytes = Vec::new();
    for part in parts {
        let blocks = u16::try_from(part.blocks()).expect("at most 65,535 blocks");
        bytes.extend(header_bytes(part.signature, blocks, &part.name));
        bytes.extend_from_slice(&part.data);
    }
    bytes
}

/// The base image E of document 01.
pub fn base() -> Vec<u8> {
    image(&[Part::common(padded(b"a=1\0", 16, 0)), Part::free(1)])
}

/// Bytes followed by padding up to a length.
pub fn padded(start: &[u8], length: usize, padding: u8) -> Vec<u8> {
    let mut bytes = start.to_vec();
    bytes.resize(length, padding);
    bytes
}

/// The bytes of one pair with its value as it is to be stored.
pub fn pair(name: &[u8], stored: &[u8]) -> Vec<u8> {
    [name, b"=", stored, b"\0"].concat()
}

/// The bytes that may stand in a variable name.
pub fn name_bytes() -> Vec<u8> {
    (0..=255).filter(|&byte| area::is_name_byte(byte)).collect()
}

/// A name that follows the name rule, most often one of a few.
pub fn good_name(rng: &mut Rng) -> Vec<u8> {
    const FEW: [&[u8]; 8] = [b"a", b"b", b"ab", b"ba", b"boot-device", b"x~", b"!", b"a-"];
    if !rng.once_in(4) {
        return rng.pick(&FEW).to_vec();
    }
    let length = *rng.pick(&[1, 2, 3, 8, 30, 31]);
    let allowed = name_bytes();
    (0..length).map(|_| *rng.pick(&allowed)).collect()
}

/// A name that mostly follows the name rule.
pub fn any_name(rng: &mut Rng) -> Vec<u8> {
    let mut name = good_name(rng);
    match rng.below(16) {
        0 => name.clear(),
        1 => name.resize(rng.between(31, 33), b'n'),
        2 => change_bytes(rng, &mut name),
        3 => {
            name.resize(rng.between(1, 33), b'n');
            change_bytes(rng, &mut name);
        }
        _ => {}
    }
    name
}

/// Puts up to three bytes of any kind at any indices of a name.
fn change_bytes(rng: &mut Rng, name: &mut [u8]) {
    for _ in 0..rng.between(1, 3) {
        let at = rng.below(name.len());
        name[at] = rng.byte();
    }
}

/// A value with many bytes 0x00 and 0xFF and some long runs.
pub fn value(rng: &mut Rng, longest: usize) -> Vec<u8> {
    let length = rng.below(longest + 1);
    let mut value = Vec::with_capacity(length);
    while value.len() < length {
        let byte = match rng.below(6) {
            0 | 1 => 0x00,
            2 => 0xFF,
            3 => *rng.pick(&[0x01, 0x7F, 0x80, 0x81, 0xFE, b'=']),
            _ => rng.byte(),
        };
        let run = match rng.below(8) {
            0 => rng.between(100, 300),
            1 => *rng.pick(&[126, 127, 128, 254, 255]),
            2 | 3 => rng.between(2, 8),
            _ => 1,
        };
        let run = run.min(length - value.len());
        value.resize(value.len() + run, byte);
    }
    value
}

/// A value of bytes that stand for themselves.
pub fn plain_value(rng: &mut Rng, length: usize) -> Vec<u8> {
    (0..length).map(|_| rng.between(0x01, 0xFE) as u8).collect()
}

/// Stored bytes of a value whose runs are split at random, so that they are seldom canonical.
pub fn split_encode(rng: &mut Rng, value: &[u8]) -> Vec<u8> {
    let mut stored = Vec::new();
    for run in value.chunk_by(|a, b| a == b) {
        let mark = match run[0] {
            0x00 => 0x00,
            0xFF => 0x80,
            _ => {
                stored.extend_from_slice(run);
                continue;
            }
        };
        let mut left = run.len();
        while left > 0 {
            let part = match rng.once_in(2) {
                true => left.min(127),
                false => rng.between(1, left.min(127)),
            };
            stored.extend([0xFF, mark | part as u8]);
            left -= part;
        }
    }
    stored
}

/// The pairs of some variables, no name twice, with split runs once in so many pairs.
pub fn pairs(rng: &mut Rng, number: usize, longest: usize, split: usize) -> Vec<u8> {
    let mut names: Vec<Vec<u8>> = Vec::new();
    let mut bytes = Vec::new();
    for _ in 0..number {
        let name = good_name(rng);
        if names.contains(&name) {
            continue;
        }
        let value = value(rng, longest);
        let stored = match rng.once_in(split) {
            true => split_encode(rng, &value),
            false => reference::value::encode(&value),
        };
        bytes.extend(pair(&name, &stored));
        names.push(name);
    }
    bytes
}

/// A well-formed data area of the pairs, with up to the given number of spare blocks.
pub fn area(rng: &mut Rng, pairs: &[u8], spare: usize) -> Vec<u8> {
    let blocks = (pairs.len() + 1).div_ceil(16) + rng.below(spare + 1);
    let mut area = padded(pairs, blocks * 16, 0);
    if rng.once_in(2) {
        for byte in &mut area[pairs.len() + 1..] {
            *byte = rng.byte();
        }
    }
    area
}

/// An accepted image with the data area in its one `common`, between up to two other partitions on each side.
pub fn around(rng: &mut Rng, area: Vec<u8>) -> Vec<u8> {
    let mut parts = Vec::new();
    for _ in 0..rng.below(3) {
        parts.push(other_part(rng));
    }
    if rng.once_in(8) {
        parts.push(Part::free(rng.between(1, 100)));
    }
    parts.push(Part::common(area));
    for _ in 0..rng.below(3) {
        parts.push(other_part(rng));
    }
    image(&parts)
}

/// A small partition that is not one with the variables, once in four nearly one.
pub fn other_part(rng: &mut Rng) -> Part {
    const NAMES: [&[u8]; 7] = [
        b"",
        b"comm",
        b"commons",
        b"ibm,setupcfg",
        b"linux",
        b"comm\0on",
        b"\x20a\x7F",
    ];
    let data = (0..16 * rng.below(4)).map(|_| rng.byte()).collect();
    let (signature, name) = match rng.once_in(4) {
        true => *rng.pick(&NEAR_MISSES),
        false => (
            *rng.pick(&[0x00, 0x51, 0x70, 0x7F, 0xA0, 0xFF]),
            *rng.pick(&NAMES),
        ),
    };
    Part::new(signature, name, data)
}

/// Gives the header at an offset another name, and the checksum that is right with it.
pub fn rename(image: &mut [u8], offset: usize, name: &[u8; 12]) {
    let blocks = u16::from_be_bytes([image[offset + 2], image[offset + 3]]);
    let header = header_bytes(image[offset], blocks, name);
    image[offset..offset + 16].copy_from_slice(&header);
}

/// The same name with random bytes after its 0x00.
pub fn with_leftover(rng: &mut Rng, name: &[u8; 12]) -> [u8; 12] {
    let mut name = *name;
    let zero = name.iter().position(|&byte| byte == 0).unwrap_or(11);
    name[zero + 1..].fill_with(|| rng.byte());
    name
}

/// The same image with random bytes after the 0x00 of each header's name.
pub fn with_leftovers(rng: &mut Rng, image: &[u8]) -> Vec<u8> {
    let mut changed = image.to_vec();
    for part in partitions(image).expect("an accepted image") {
        let name = with_leftover(rng, &part.name);
        rename(&mut changed, part.offset, &name);
    }
    changed
}

/// Puts the headers of an accepted image over another with the same partitions.
pub fn copy_headers(from: &[u8], to: &mut [u8]) {
    for part in partitions(from).expect("an accepted image") {
        let header = part.offset..part.offset + 16;
        to[header.clone()].copy_from_slice(&from[header]);
    }
}

/// An accepted image with random variables in a small area, once in three with leftover bytes in its headers.
pub fn random_image(rng: &mut Rng, number: usize, longest: usize, spare: usize) -> Vec<u8> {
    let image = padded_image(rng, number, longest, spare);
    match rng.once_in(3) {
        true => with_leftovers(rng, &image),
        false => image,
    }
}

/// An accepted image with random variables in a small area; nearly all of its names are padded with 0x00.
pub fn padded_image(rng: &mut Rng, number: usize, longest: usize, spare: usize) -> Vec<u8> {
    let number = rng.below(number + 1);
    let pairs = pairs(rng, number, longest, 3);
    let area = area(rng, &pairs, spare);
    around(rng, area)
}
