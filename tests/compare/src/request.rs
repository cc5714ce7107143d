//! One call of any kind, made through the C boundary, through the wrapper, and on the reference.

use crate::guarded::Guarded;
use nvram::{sys, Error};
use reference::Refusal;
use std::fmt;

/// A value that outputs hold before a call, so that an output that is not stored shows.
const UNSET: usize = 0x5A5A_5A5A_5A5A;

/// A call with its arguments; a read and a listing carry the buffer as it is lent.
#[derive(Clone)]
pub enum Request {
    Check,
    Partition(usize),
    Find(u8, Vec<u8>),
    Count,
    Read(Vec<u8>, Vec<u8>),
    Set(Vec<u8>, Vec<u8>),
    Remove(Vec<u8>),
    Normalize,
    Listing(Vec<u8>),
}

/// An answer: the code, the offset, up to three numbers, and the buffer afterwards.
#[derive(Clone, Default, PartialEq, Eq)]
pub struct Reply {
    pub code: u32,
    pub offset: usize,
    pub amounts: [usize; 3],
    pub buffer: Vec<u8>,
    /// Tells that bytes outside of the buffer were changed.
    pub stray: bool,
}

impl Request {
    /// Tells whether the call may change the image.
    pub fn edits(&self) -> bool {
        matches!(
            self,
            Request::Set(..) | Request::Remove(_) | Request::Normalize
        )
    }

    /// The buffer as it is lent, empty for calls without one.
    pub fn lent(&self) -> &[u8] {
        match self {
            Request::Read(_, buffer) | Request::Listing(buffer) => buffer,
            _ => &[],
        }
    }

    /// The variable's name, empty for calls without one.
    pub fn variable(&self) -> &[u8] {
        match self {
            Request::Read(name, _) | Request::Set(name, _) | Request::Remove(name) => name,
            _ => &[],
        }
    }
}

/// Makes the call through the C boundary.
pub fn raw(image: &mut Guarded, request: &Request) -> Reply {
    let (mut offset, mut amounts) = (UNSET, [0; 3]);
    let mut buffer = Guarded::new(request.lent());
    let code = match request {
        Request::Check | Request::Count | Request::Partition(_) | Request::Find(..) => {
            raw_question(image.bytes(), request, &mut offset, &mut amounts)
        }
        Request::Read(name, _) => raw_read(
            image.bytes(),
            name,
            buffer.bytes_mut(),
            &mut offset,
            &mut amounts[0],
        ),
        Request::Listing(_) => {
            offset = 0;
            raw_listing(image.bytes(), buffer.bytes_mut(), &mut amounts[0])
        }
        _ => raw_edit(image.bytes_mut(), request, &mut offset),
    };
    Reply {
        code,
        offset,
        amounts,
        buffer: buffer.bytes().to_vec(),
        stray: !buffer.intact(),
    }
}

fn raw_question(image: &[u8], request: &Request, offset: &mut usize, out: &mut [usize; 3]) -> u32 {
    let (start, length) = (image.as_ptr(), image.len());
    let [first, second, third] = out;
    *first = UNSET;
    // SAFETY: each pointer is of a live borrow with its slice's length: valid, not null, and none overlaps another.
    unsafe {
        match request {
            Request::Check => sys::nvram_check(start, length, offset, first),
            Request::Count => sys::nvram_count(start, length, offset, first),
            Request::Partition(index) => {
                *second = UNSET;
                let mut sign = 0x5A;
                let code =
                    sys::nvram_partition(start, length, *index, offset, first, second, &mut sign);
                *third = usize::from(sign);
                code
            }
            Request::Find(sign, name) => {
                *second = UNSET;
                let (name, size) = (name.as_ptr(), name.len());
                sys::nvram_find(start, length, *sign, name, size, offset, first, second)
            }
            _ => unreachable!("only questions come here"),
        }
    }
}

fn raw_read(
    image: &[u8],
    name: &[u8],
    buffer: &mut [u8],
    offset: &mut usize,
    length: &mut usize,
) -> u32 {
    *length = UNSET;
    // SAFETY: each pointer is of a live borrow with its slice's length: valid, not null, and none overlaps another.
    unsafe {
        sys::nvram_read(
            image.as_ptr(),
            image.len(),
            name.as_ptr(),
            name.len(),
            buffer.as_mut_ptr(),
            buffer.len(),
            offset,
            length,
        )
    }
}

fn raw_listing(image: &[u8], text: &mut [u8], length: &mut usize) -> u32 {
    *length = UNSET;
    let (start, size) = (image.as_ptr(), image.len());
    // SAFETY: each pointer is of a live borrow with its slice's length: valid, not null, and none overlaps another.
    unsafe { sys::nvram_listing(start, size, text.as_mut_ptr(), text.len(), length) }
}

fn raw_edit(image: &mut [u8], request: &Request, offset: &mut usize) -> u32 {
    let (start, length) = (image.as_mut_ptr(), image.len());
    // SAFETY: each pointer is of a live borrow with its slice's length: valid, not null, and none overlaps another.
    unsafe {
        match request {
            Request::Set(name, value) => sys::nvram_set(
                start,
                length,
                name.as_ptr(),
                name.len(),
                value.as_ptr(),
                value.len(),
                offset,
            ),
            Request::Remove(name) => {
                sys::nvram_remove(start, length, name.as_ptr(), name.len(), offset)
            }
            Request::Normalize => sys::nvram_normalize(start, length, offset),
            _ => unreachable!("only edits come here"),
        }
    }
}

/// Makes the call through the wrapper, and answers also the byte that its error has.
pub fn wrapped(image: &mut [u8], request: &Request) -> (Reply, Option<u8>) {
    let mut buffer = request.lent().to_vec();
    let result: Result<[usize; 3], Error> = match request {
        Request::Check => nvram::check(image).map(|count| [count, 0, 0]),
        Request::Partition(index) => {
            nvram::partition(image, *index).map(|p| [p.header, p.blocks, usize::from(p.signature)])
        }
        Request::Find(signature, name) => {
            nvram::find(image, *signature, name).map(|p| [p.header, p.blocks, 0])
        }
        Request::Count => nvram::count(image).map(|count| [count, 0, 0]),
        Request::Read(name, _) => {
            nvram::read(image, name, &mut buffer).map(|value| [value.len(), 0, 0])
        }
        Request::Set(name, value) => nvram::set(image, name, value).map(|()| [0; 3]),
        Request::Remove(name) => nvram::remove(image, name).map(|()| [0; 3]),
        Request::Normalize => nvram::normalize(image).map(|()| [0; 3]),
        Request::Listing(_) => nvram::listing(image, &mut buffer).map(|text| [text.len(), 0, 0]),
    };
    let byte = result.err().and_then(|error| error.byte);
    let result = result.map_err(|error| (error.code.number(), error.offset));
    (reply(result, buffer), byte)
}

/// A reply from the outputs, or from the code and the offset of an error.
fn reply(result: Result<[usize; 3], (u32, usize)>, buffer: Vec<u8>) -> Reply {
    let (code, offset, amounts) = match result {
        Ok(amounts) => (0, 0, amounts),
        Err((code, offset)) => (code, offset, [0; 3]),
    };
    Reply {
        code,
        offset,
        amounts,
        buffer,
        stray: false,
    }
}

/// Makes the call on the reference.
pub fn expected(image: &mut [u8], request: &Request) -> Reply {
    let mut buffer = request.lent().to_vec();
    let result: Result<[usize; 3], Refusal> = match request {
        Request::Check => reference::check(image).map(|count| [count, 0, 0]),
        Request::Partition(index) => reference::partition(image, *index)
            .map(|p| [p.offset, p.blocks, usize::from(p.signature)]),
        Request::Find(signature, name) => {
            reference::find(image, *signature, name).map(|p| [p.offset, p.blocks, 0])
        }
        Request::Count => reference::count(image).map(|count| [count, 0, 0]),
        Request::Read(name, _) => {
            reference::read(image, name, &mut buffer).map(|length| [length, 0, 0])
        }
        Request::Set(name, value) => reference::set(image, name, value).map(|()| [0; 3]),
        Request::Remove(name) => reference::remove(image, name).map(|()| [0; 3]),
        Request::Normalize => reference::normalize(image).map(|()| [0; 3]),
        Request::Listing(_) => expected_listing(image, &mut buffer),
    };
    reply(
        result.map_err(|refusal| (refusal.code, refusal.offset)),
        buffer,
    )
}

/// Puts the whole listing at the start of the text, or refuses with 14 if it has no room.
fn expected_listing(image: &[u8], text: &mut [u8]) -> Result<[usize; 3], Refusal> {
    let listing = reference::listing(image);
    let target = text.get_mut(..listing.len()).ok_or(Refusal::plain(14))?;
    target.copy_from_slice(&listing);
    Ok([listing.len(), 0, 0])
}

/// Bytes as hex, or their number and hash if there are many.
pub fn shown(bytes: &[u8]) -> String {
    if bytes.len() > 1_024 {
        return format!(
            "{} bytes with hash {:016x}",
            bytes.len(),
            crate::rng::hash(bytes)
        );
    }
    let hex: String = bytes.iter().map(|byte| format!("{byte:02x}")).collect();
    format!("{} bytes [{hex}]", bytes.len())
}

impl fmt::Display for Request {
    fn fmt(&self, out: &mut fmt::Formatter) -> fmt::Result {
        match self {
            Request::Check => write!(out, "check"),
            Request::Partition(index) => write!(out, "partition {index}"),
            Request::Find(signature, name) => {
                write!(out, "find signature {signature:02x}, name {}", shown(name))
            }
            Request::Count => write!(out, "count"),
            Request::Read(name, buffer) => {
                write!(out, "read name {}, buffer {}", shown(name), shown(buffer))
            }
            Request::Set(name, value) => {
                write!(out, "set name {}, value {}", shown(name), shown(value))
            }
            Request::Remove(name) => write!(out, "remove name {}", shown(name)),
            Request::Normalize => write!(out, "normalize"),
            Request::Listing(text) => write!(out, "listing into {} bytes", text.len()),
        }
    }
}

impl fmt::Display for Reply {
    fn fmt(&self, out: &mut fmt::Formatter) -> fmt::Result {
        write!(
            out,
            "code {}, offset {}, numbers {:?}",
            self.code, self.offset, self.amounts
        )?;
        if !self.buffer.is_empty() {
            write!(out, ", buffer {}", shown(&self.buffer))?;
        }
        if self.stray {
            write!(out, ", bytes outside of the buffer changed")?;
        }
        Ok(())
    }
}
