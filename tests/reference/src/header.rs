//! The 16-byte headers and the list of partitions.

use crate::Refusal;
use std::ops::Range;

/// The bytes of a block, which are also the bytes of a header.
pub const BLOCK: usize = 16;

/// The bytes of the longest image.
pub const LONGEST_IMAGE: usize = 65_536 * BLOCK;

/// A partition as its header describes it, with the offset of that header.
#[derive(Debug, Clone, PartialEq, Eq)]
pub struct Partition {
    pub offset: usize,
    pub blocks: usize,
    pub signature: u8,
    pub name: [u8; 12],
}

impl Partition {
    /// The offset just past the partition.
    pub fn end(&self) -> usize {
        self.offset + self.blocks * BLOCK
    }

    /// The range of the partition's data area in the image.
    pub fn data(&self) -> Range<usize> {
        self.offset + BLOCK..self.end()
    }

    /// Tells whether the partition has the signature, and a name that is the same.
    pub fn matches(&self, signature: u8, name: &[u8; 12]) -> bool {
        self.signature == signature && same_name(&self.name, name)
    }
}

/// Adds the covered bytes one by one, and adds 1 whenever a carry leaves the byte.
pub fn checksum(signature: u8, blocks: u16, name: &[u8; 12]) -> u8 {
    let length = blocks.to_be_bytes();
    let covered = [signature].into_iter().chain(length).chain(*name);
    covered.fold(0u8, |sum, byte| {
        let (low, carry) = sum.overflowing_add(byte);
        low + carry as u8
    })
}

/// The 16 bytes of a header with the right checksum.
pub fn header_bytes(signature: u8, blocks: u16, name: &[u8; 12]) -> [u8; BLOCK] {
    let mut bytes = [0; BLOCK];
    bytes[0] = signature;
    bytes[1] = checksum(signature, blocks, name);
    bytes[2..4].copy_from_slice(&blocks.to_be_bytes());
    bytes[4..].copy_from_slice(name);
    bytes
}

/// Tells whether two names are the same: they agree up to and with the first 0x00 of either, or in all twelve bytes
/// where neither has one.
pub fn same_name(left: &[u8; 12], right: &[u8; 12]) -> bool {
    let first_zero = (0..12).find(|&index| left[index] == 0 || right[index] == 0);
    match first_zero {
        Some(index) => left[..=index] == right[..=index],
        None => left == right,
    }
}

/// A caller's partition name with 0x00 up to twelve bytes, or nothing if it is longer.
pub fn padded_name(name: &[u8]) -> Option<[u8; 12]> {
    let mut padded = [0; 12];
    padded.get_mut(..name.len())?.copy_from_slice(name);
    Some(padded)
}

/// All partitions of an accepted image, in order.
pub fn partitions(image: &[u8]) -> Result<Vec<Partition>, Refusal> {
    if image.is_empty() || image.len() > LONGEST_IMAGE || !image.len().is_multiple_of(BLOCK) {
        return Err(Refusal::plain(1));
    }
    let mut list = Vec::new();
    let mut offset = 0;
    while offset < image.len() {
        let partition = parse_header(image, offset)?;
        offset = partition.end();
        list.push(partition);
    }
    Ok(list)
}

/// Parses and checks the header at the offset, which has a whole block behind it.
fn parse_header(image: &[u8], offset: usize) -> Result<Partition, Refusal> {
    let bytes = &image[offset..offset + BLOCK];
    let blocks = u16::from_be_bytes([bytes[2], bytes[3]]);
    let mut name = [0; 12];
    name.copy_from_slice(&bytes[4..]);
    let partition = Partition {
        offset,
        blocks: blocks as usize,
        signature: bytes[0],
        name,
    };
    let computed = checksum(bytes[0], blocks, &name);
    if blocks == 0 {
        Err(Refusal::at(2, offset))
    } else if partition.end() > image.len() {
        Err(Refusal::at(3, offset))
    } else if bytes[1] != computed {
        Err(Refusal::at(4, offset))
    } else {
        Ok(partition)
    }
}
