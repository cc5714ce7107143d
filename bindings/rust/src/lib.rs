//! Safe calls into the proved NVRAM library.
//!
//! Every function takes slices, so pointers and lengths always agree and nothing overlaps.
//! A refused call leaves the image and the buffer with the bytes they had.
//!
//! The calls on variables (`count`, `read`, `set`, `remove`, `normalize`) refuse an image with a second partition of
//! signature 0x70 and name `common` with [`Code::RepeatedPartition`]; the other calls take it.

#![no_std]

#[cfg(test)]
extern crate std;

mod error;
pub mod sys;

pub use error::{Code, Error};

use core::ops::Range;

/// The bytes of a block, which are also the bytes of a header.
const BLOCK: usize = 16;

/// A partition: the offset of its header, its length in blocks, and its signature.
#[derive(Debug, Clone, Copy, PartialEq, Eq)]
pub struct Partition {
    /// The offset of the header in the image.
    pub header: usize,
    /// The length in blocks of 16 bytes, header included.
    pub blocks: usize,
    /// The signature, which is the kind of partition.
    pub signature: u8,
}

impl Partition {
    /// The range of the partition's data area in its image.
    pub fn data(&self) -> Range<usize> {
        self.header + BLOCK..self.header + self.blocks * BLOCK
    }
}

/// Turns the answer of a C function into a result.
fn answer<T>(code: u32, offset: usize, done: T) -> Result<T, Error> {
    match code {
        0 => Ok(done),
        number => Err(Error {
            code: Code::from_number(number),
            offset,
            byte: None,
        }),
    }
}

/// The same for a call by a variable's name: where the name is wrong, the error has its byte at the index.
fn answer_by_name<T>(code: u32, offset: usize, name: &[u8], done: T) -> Result<T, Error> {
    answer(code, offset, done).map_err(|error| match error.code {
        Code::BadName => Error {
            byte: name.get(offset).copied(),
            ..error
        },
        _ => error,
    })
}

/// Checks a whole image and answers its number of partitions.
///
/// ```
/// let mut image = [0x77; 16];
/// image[..4].copy_from_slice(&[0x7F, 0x1A, 0x00, 0x01]);
/// assert_eq!(nvram::check(&image), Ok(1));
/// image[1] = 0;
/// assert_eq!(nvram::check(&image).unwrap_err().code, nvram::Code::Checksum);
/// ```
pub fn check(image: &[u8]) -> Result<usize, Error> {
    let (mut offset, mut partitions) = (0, 0);
    // SAFETY: each pointer is of a live borrow with its slice's length: valid, not null, and none overlaps another.
    let code =
        unsafe { sys::nvram_check(image.as_ptr(), image.len(), &mut offset, &mut partitions) };
    answer(code, offset, partitions)
}

/// The partition with an index, counted from 0.
pub fn partition(image: &[u8], index: usize) -> Result<Partition, Error> {
    let (mut offset, mut header, mut blocks, mut signature) = (0, 0, 0, 0);
    // SAFETY: each pointer is of a live borrow with its slice's length: valid, not null, and none overlaps another.
    let code = unsafe {
        sys::nvram_partition(
            image.as_ptr(),
            image.len(),
            index,
            &mut offset,
            &mut header,
            &mut blocks,
            &mut signature,
        )
    };
    let found = Partition {
        header,
        blocks,
        signature,
    };
    answer(code, offset, found)
}

/// The first partition with a signature and a name.
///
/// The name is padded with 0x00 to twelve bytes, and a longer one is found nowhere. Two names are the same where they agree
/// up to and with the first 0x00 of either, or in all twelve bytes where neither has one.
///
/// ```
/// let mut image = [0x77; 16];
/// image[..4].copy_from_slice(&[0x7F, 0x1A, 0x00, 0x01]);
/// let free = nvram::find(&image, 0x7F, &[0x77; 12])?;
/// assert_eq!((free.header, free.blocks), (0, 1));
/// assert!(image[free.data()].is_empty());
///
/// // Bytes after the 0x00 of a name do not count.
/// image.copy_from_slice(b"\x70\x75\x00\x01common\0x\0\0\0\0");
/// assert_eq!(nvram::find(&image, 0x70, b"common")?.header, 0);
/// assert_eq!(nvram::find(&image, 0x70, b"comm").unwrap_err().code, nvram::Code::NoPartition);
/// # Ok::<(), nvram::Error>(())
/// ```
pub fn find(image: &[u8], signature: u8, name: &[u8]) -> Result<Partition, Error> {
    let (mut offset, mut header, mut blocks) = (0, 0, 0);
    // SAFETY: each pointer is of a live borrow with its slice's length: valid, not null, and none overlaps another.
    let code = unsafe {
        sys::nvram_find(
            image.as_ptr(),
            image.len(),
            signature,
            name.as_ptr(),
            name.len(),
            &mut offset,
            &mut header,
            &mut blocks,
        )
    };
    let found = Partition {
        header,
        blocks,
        signature,
    };
    answer(code, offset, found)
}

/// The number of variables.
///
/// An image with a second `common` is refused at that one's header, by each call on variables and by no other call:
///
/// ```
/// let two = *b"\x70\xFC\x00\x01common\0\0\0\0\0\0\x70\xFC\x00\x01common\0\0\0\0\0\0";
/// let mut image = two;
/// let error = nvram::count(&image).unwrap_err();
/// assert_eq!((error.code, error.offset), (nvram::Code::RepeatedPartition, 16));
/// assert_eq!(nvram::set(&mut image, b"a", b"1"), Err(error));
/// assert_eq!(image, two);
///
/// assert_eq!(nvram::check(&image), Ok(2));
/// assert_eq!(nvram::find(&image, 0x70, b"common")?.header, 0);
/// # Ok::<(), nvram::Error>(())
/// ```
pub fn count(image: &[u8]) -> Result<usize, Error> {
    let (mut offset, mut variables) = (0, 0);
    // SAFETY: each pointer is of a live borrow with its slice's length: valid, not null, and none overlaps another.
    let code =
        unsafe { sys::nvram_count(image.as_ptr(), image.len(), &mut offset, &mut variables) };
    answer(code, offset, variables)
}

/// Copies a variable's value into the buffer and answers that part of the buffer.
pub fn read<'b>(image: &[u8], name: &[u8], buffer: &'b mut [u8]) -> Result<&'b [u8], Error> {
    let (mut offset, mut length) = (0, 0);
    // SAFETY: each pointer is of a live borrow with its slice's length: valid, not null, and none overlaps another.
    let code = unsafe {
        sys::nvram_read(
            image.as_ptr(),
            image.len(),
            name.as_ptr(),
            name.len(),
            buffer.as_mut_ptr(),
            buffer.len(),
            &mut offset,
            &mut length,
        )
    };
    answer_by_name(code, offset, name, length).map(|length| &buffer[..length])
}

/// Gives a variable a value, and adds the variable after the last one if it is new.
///
/// ```
/// let mut image = *b"\x70\xFD\x00\x02common\0\0\0\0\0\0a=1\0\0\0\0\0\0\0\0\0\0\0\0\0";
/// nvram::set(&mut image, b"b", &[0x00, 0x00, 0xFF])?;
/// assert_eq!(&image[16..28], b"a=1\0b=\xFF\x02\xFF\x81\0\0");
/// let mut buffer = [0; 8];
/// assert_eq!(nvram::read(&image, b"b", &mut buffer)?, [0x00, 0x00, 0xFF]);
/// # Ok::<(), nvram::Error>(())
/// ```
///
/// A name that breaks the name rule is refused with the index of its first wrong byte, and with that byte:
///
/// ```
/// # let mut image = *b"\x70\xFD\x00\x02common\0\0\0\0\0\0a=1\0\0\0\0\0\0\0\0\0\0\0\0\0";
/// let error = nvram::set(&mut image, b"bootDevice", b"disk").unwrap_err();
/// assert_eq!(error.code, nvram::Code::BadName);
/// assert_eq!((error.offset, error.byte), (4, Some(b'D')));
/// ```
pub fn set(image: &mut [u8], name: &[u8], value: &[u8]) -> Result<(), Error> {
    let mut offset = 0;
    // SAFETY: each pointer is of a live borrow with its slice's length: valid, not null, and none overlaps another.
    let code = unsafe {
        sys::nvram_set(
            image.as_mut_ptr(),
            image.len(),
            name.as_ptr(),
            name.len(),
            value.as_ptr(),
            value.len(),
            &mut offset,
        )
    };
    answer_by_name(code, offset, name, ())
}

/// Takes a variable out.
pub fn remove(image: &mut [u8], name: &[u8]) -> Result<(), Error> {
    let mut offset = 0;
    // SAFETY: each pointer is of a live borrow with its slice's length: valid, not null, and none overlaps another.
    let code = unsafe {
        sys::nvram_remove(
            image.as_mut_ptr(),
            image.len(),
            name.as_ptr(),
            name.len(),
            &mut offset,
        )
    };
    answer_by_name(code, offset, name, ())
}

/// Gives the data area of the variables its canonical form.
pub fn normalize(image: &mut [u8]) -> Result<(), Error> {
    let mut offset = 0;
    // SAFETY: each pointer is of a live borrow with its slice's length: valid, not null, and none overlaps another.
    let code = unsafe { sys::nvram_normalize(image.as_mut_ptr(), image.len(), &mut offset) };
    answer(code, offset, ())
}

/// Writes the listing of the partitions to the start of the text and answers that part of it.
///
/// ```
/// let mut text = [0; 32];
/// assert_eq!(nvram::listing(&[], &mut text)?, b"refused 1 at 0\n");
/// # Ok::<(), nvram::Error>(())
/// ```
pub fn listing<'t>(image: &[u8], text: &'t mut [u8]) -> Result<&'t [u8], Error> {
    let mut length = 0;
    // SAFETY: each pointer is of a live borrow with its slice's length: valid, not null, and none overlaps another.
    let code = unsafe {
        sys::nvram_listing(
            image.as_ptr(),
            image.len(),
            text.as_mut_ptr(),
            text.len(),
            &mut length,
        )
    };
    answer(code, 0, length).map(|length| &text[..length])
}

#[cfg(test)]
mod tests {
    use super::*;

    #[test]
    fn unknown_code_is_an_error() {
        let error = Error {
            code: Code::Unknown(99),
            offset: 5,
            byte: None,
        };
        assert_eq!(answer(99, 5, ()), Err(error));
        assert_eq!(answer_by_name(99, 5, b"a-name", ()), Err(error));
        assert_eq!(answer(0, 0, 7), Ok(7));
    }

    #[test]
    fn bad_name_has_the_byte_at_its_index() {
        let byte = |index, name| answer_by_name(11, index, name, ()).unwrap_err().byte;
        assert_eq!(byte(2, b"abC"), Some(b'C'));
        assert_eq!(byte(31, &[b'n'; 32]), Some(b'n'));
        assert_eq!(byte(0, b""), None);
        assert_eq!(answer(11, 2, ()).unwrap_err().byte, None);
        assert_eq!(answer_by_name(0, 0, b"", 7), Ok(7));
    }
}
