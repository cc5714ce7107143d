//! A second implementation of the NVRAM image rules, made apart from the verified library.
//!
//! Every call parses the image into owned lists, acts on the lists, and prints the result back.

pub mod area;
pub mod header;
pub mod model;
pub mod value;

mod listing;

pub use header::Partition;
pub use listing::listing;

use area::Pair;
use std::ops::Range;

/// An error code of the table with the offset answered beside it.
#[derive(Debug, Clone, Copy, PartialEq, Eq)]
pub struct Refusal {
    pub code: u32,
    pub offset: usize,
}

impl Refusal {
    /// A refusal whose offset is 0.
    pub fn plain(code: u32) -> Refusal {
        Refusal { code, offset: 0 }
    }

    /// A refusal at the given offset of the image, or with 11 at the given index of the name.
    pub fn at(code: u32, offset: usize) -> Refusal {
        Refusal { code, offset }
    }
}

/// Checks the whole image and answers its number of partitions.
pub fn check(image: &[u8]) -> Result<usize, Refusal> {
    Ok(header::partitions(image)?.len())
}

/// The partition with the given index, counted from 0.
pub fn partition(image: &[u8], index: usize) -> Result<Partition, Refusal> {
    let all = header::partitions(image)?;
    all.get(index).cloned().ok_or(Refusal::plain(6))
}

/// The first partition with the given signature and name.
pub fn find(image: &[u8], signature: u8, name: &[u8]) -> Result<Partition, Refusal> {
    let all = header::partitions(image)?;
    let wanted = header::padded_name(name).ok_or(Refusal::plain(6))?;
    all.into_iter()
        .find(|partition| partition.matches(signature, &wanted))
        .ok_or(Refusal::plain(6))
}

/// The number of variables.
pub fn count(image: &[u8]) -> Result<usize, Refusal> {
    Ok(variables(image)?.1.len())
}

/// Copies a variable's value to the start of the buffer and answers the value's length.
pub fn read(image: &[u8], name: &[u8], buffer: &mut [u8]) -> Result<usize, Refusal> {
    area::check_name(name)?;
    let (_, pairs) = variables(image)?;
    let pair = pairs
        .iter()
        .find(|pair| pair.name == name)
        .ok_or(Refusal::plain(12))?;
    let target = buffer
        .get_mut(..pair.value.len())
        .ok_or(Refusal::plain(14))?;
    target.copy_from_slice(&pair.value);
    Ok(pair.value.len())
}

/// Gives a variable a value, and adds the variable after the last one if it is new.
pub fn set(image: &mut [u8], name: &[u8], value: &[u8]) -> Result<(), Refusal> {
    area::check_name(name)?;
    let (range, mut pairs) = variables(image)?;
    let new = Pair::canonical(name, value);
    match pairs.iter_mut().find(|pair| pair.name == name) {
        Some(old) => *old = new,
        None => pairs.push(new),
    }
    write_back(image, range, &pairs)
}

/// Takes a variable out.
pub fn remove(image: &mut [u8], name: &[u8]) -> Result<(), Refusal> {
    area::check_name(name)?;
    let (range, mut pairs) = variables(image)?;
    let position = pairs
        .iter()
        .position(|pair| pair.name == name)
        .ok_or(Refusal::plain(12))?;
    pairs.remove(position);
    write_back(image, range, &pairs)
}

/// Gives the whole data area of the variables its canonical form.
pub fn normalize(image: &mut [u8]) -> Result<(), Refusal> {
    let (range, mut pairs) = variables(image)?;
    for pair in &mut pairs {
        pair.stored = value::encode(&pair.value);
    }
    write_back(image, range, &pairs)
}

/// Where the variables' data area stands in the image; a second partition for the variables is refused at its header.
pub fn variables_range(image: &[u8]) -> Result<Range<usize>, Refusal> {
    let all = header::partitions(image)?;
    let common = |partition: &&Partition| partition.matches(0x70, b"common\0\0\0\0\0\0");
    let mut found = all.iter().filter(common);
    match (found.next(), found.next()) {
        (_, Some(second)) => Err(Refusal::at(20, second.offset)),
        (Some(only), None) => Ok(only.data()),
        (None, None) => Err(Refusal::plain(6)),
    }
}

/// The variables' data area and its parsed pairs.
pub fn variables(image: &[u8]) -> Result<(Range<usize>, Vec<Pair>), Refusal> {
    let range = variables_range(image)?;
    let pairs = area::parse(&image[range.clone()], range.start)?;
    Ok((range, pairs))
}

/// Prints the pairs over the data area, or refuses with 13 before any byte is written.
fn write_back(image: &mut [u8], range: Range<usize>, pairs: &[Pair]) -> Result<(), Refusal> {
    let printed = area::print(pairs, range.len()).ok_or(Refusal::plain(13))?;
    image[range].copy_from_slice(&printed);
    Ok(())
}

#[cfg(test)]
mod tests;
