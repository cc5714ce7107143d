//! The calls of both sides, and the test that the sides agree.

use std::hint::black_box;

/// One call with what it is given besides the image and the buffer.
#[derive(Clone, Copy)]
pub enum Call<'a> {
    Check,
    Find(u8, &'a [u8]),
    Count,
    Read(&'a [u8]),
    Set(&'a [u8], &'a [u8]),
    Remove(&'a [u8]),
    Normalize,
    Listing,
}

/// What a call answers: the error code, the offset, and the count, the length or the header's offset.
#[derive(Clone, Copy, Debug, PartialEq)]
pub struct Answer {
    pub code: u32,
    pub offset: usize,
    pub number: usize,
}

impl Call<'_> {
    /// Whether the call changes the image.
    pub fn edits(self) -> bool {
        matches!(self, Call::Set(..) | Call::Remove(_) | Call::Normalize)
    }

    /// Makes the call of the library.
    pub fn library(self, image: &mut [u8], buffer: &mut [u8]) -> Answer {
        let answer = match self {
            Call::Check => nvram::check(image),
            Call::Find(signature, name) => nvram::find(image, signature, name).map(|p| p.header),
            Call::Count => nvram::count(image),
            Call::Read(name) => nvram::read(image, name, buffer).map(<[u8]>::len),
            Call::Set(name, value) => nvram::set(image, name, value).map(|()| 0),
            Call::Remove(name) => nvram::remove(image, name).map(|()| 0),
            Call::Normalize => nvram::normalize(image).map(|()| 0),
            Call::Listing => nvram::listing(image, buffer).map(|text| text.len()),
        };
        match answer {
            Ok(number) => Answer {
                code: 0,
                offset: 0,
                number,
            },
            Err(error) => Answer {
                code: error.code.number(),
                offset: error.offset,
                number: 0,
            },
        }
    }

    /// Makes the call of the reference, whose listing is a vector of its own and not in the buffer.
    pub fn reference(self, image: &mut [u8], buffer: &mut [u8]) -> Answer {
        let answer = match self {
            Call::Check => reference::check(image),
            Call::Find(signature, name) => {
                reference::find(image, signature, name).map(|p| p.offset)
            }
            Call::Count => reference::count(image),
            Call::Read(name) => reference::read(image, name, buffer),
            Call::Set(name, value) => reference::set(image, name, value).map(|()| 0),
            Call::Remove(name) => reference::remove(image, name).map(|()| 0),
            Call::Normalize => reference::normalize(image).map(|()| 0),
            Call::Listing => Ok(black_box(reference::listing(image)).len()),
        };
        match answer {
            Ok(number) => Answer {
                code: 0,
                offset: 0,
                number,
            },
            Err(refusal) => Answer {
                code: refusal.code,
                offset: refusal.offset,
                number: 0,
            },
        }
    }

    /// Makes the call on both sides and gives the common answer, or says where the sides differ.
    pub fn agreed(self, image: &[u8], buffer: &[u8]) -> Result<Answer, String> {
        let (mut image_l, mut image_r) = (image.to_vec(), image.to_vec());
        let (mut buffer_l, mut buffer_r) = (buffer.to_vec(), buffer.to_vec());
        let library = self.library(&mut image_l, &mut buffer_l);
        let reference = self.reference(&mut image_r, &mut buffer_r);
        if let Call::Listing = self {
            let text = reference::listing(image);
            buffer_r[..text.len()].copy_from_slice(&text);
        }
        if library != reference {
            return Err(format!(
                "the library answers {library:?}, the reference {reference:?}"
            ));
        }
        if let Some(at) = difference(&image_l, &image_r) {
            return Err(format!("the images differ afterwards at offset {at}"));
        }
        if let Some(at) = difference(&buffer_l, &buffer_r) {
            return Err(format!("the buffers differ afterwards at offset {at}"));
        }
        Ok(library)
    }
}

/// The first offset at which two slices of one length differ.
fn difference(left: &[u8], right: &[u8]) -> Option<usize> {
    left.iter()
        .zip(right)
        .position(|(left, right)| left != right)
}
