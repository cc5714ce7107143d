//! The errors of the library as types.

use core::fmt;

/// Makes `Code` and its functions from one table: the number, the name, and the words of `nvram.h`.
macro_rules! codes {
    ($($number:literal $name:ident $text:literal,)*) => {
        /// The fault that an error code stands for.
        #[derive(Debug, Clone, Copy, PartialEq, Eq, Hash)]
        #[non_exhaustive]
        pub enum Code {
            $(#[doc = $text] $name,)*
            /// An error code that this crate does not know, as a later library may answer it.
            Unknown(u32),
        }

        impl Code {
            /// The case of an error code; `Unknown` only where no other case has this number.
            pub fn from_number(number: u32) -> Code {
                match number {
                    $($number => Code::$name,)*
                    unknown => Code::Unknown(unknown),
                }
            }

            /// The error code.
            pub fn number(self) -> u32 {
                match self {
                    $(Code::$name => $number,)*
                    Code::Unknown(number) => number,
                }
            }

            /// The fault in words.
            pub fn text(self) -> &'static str {
                match self {
                    $(Code::$name => $text,)*
                    Code::Unknown(_) => "unknown code",
                }
            }
        }
    };
}

codes! {
    1 ImageLength "the image's length is not a multiple of 16 from 16 to 1048576",
    2 ZeroLength "a partition's length field is zero",
    3 PastEnd "a partition runs past the image's end",
    4 Checksum "a header's stored and computed checksum differ",
    6 NoPartition "the partition is not found",
    7 AreaEnd "the area ends inside a pair, or where a pair or the end should begin",
    8 StoredName "a stored name breaks the name rule",
    9 Escape "a stored 0xFF is followed by 0x00 or 0x80",
    10 Repeated "a name stands a second time",
    11 BadName "the caller's variable name breaks the name rule",
    12 NoVariable "the variable is not found",
    13 NoRoom "the pairs and the ending 0x00 after the edit exceed the area",
    14 ShortBuffer "the buffer is shorter than the value or the text",
    20 RepeatedPartition "a second partition has signature 0x70 and the name common",
}

impl fmt::Display for Code {
    fn fmt(&self, out: &mut fmt::Formatter) -> fmt::Result {
        out.write_str(self.text())
    }
}

/// A refused call: its code, and where the fault is.
#[derive(Debug, Clone, Copy, PartialEq, Eq, Hash)]
#[non_exhaustive]
pub struct Error {
    /// The fault.
    pub code: Code,
    /// The offset of the fault in the image, 0 where it has none; with `Code::BadName` the index in the caller's name.
    pub offset: usize,
    /// The byte of the caller's name at that index, where the code is `Code::BadName` and there is one.
    pub byte: Option<u8>,
}

impl fmt::Display for Error {
    fn fmt(&self, out: &mut fmt::Formatter) -> fmt::Result {
        let Error { code, offset, byte } = self;
        let place = match code {
            Code::BadName => "index",
            _ => "offset",
        };
        write!(out, "{code} (error {} at {place} {offset}", code.number())?;
        match byte {
            Some(visible @ 0x21..=0x7E) => write!(out, ", byte `{}`)", char::from(*visible)),
            Some(other) => write!(out, ", byte 0x{other:02X})"),
            None => out.write_str(")"),
        }
    }
}

impl core::error::Error for Error {}

#[cfg(test)]
mod tests {
    use super::*;
    use std::string::ToString;

    #[test]
    fn number_goes_to_its_code_and_back() {
        for number in 0..1_000 {
            assert_eq!(Code::from_number(number).number(), number);
        }
        assert_eq!(Code::from_number(4), Code::Checksum);
    }

    #[test]
    fn numbers_of_the_table_are_known_and_no_other() {
        let known = |&number: &u32| !matches!(Code::from_number(number), Code::Unknown(_));
        let table = (1..=4).chain(6..=14).chain([20]);
        assert!((0..1_000).filter(known).eq(table));
    }

    #[test]
    fn error_shows_its_code_and_offset() {
        let error = Error {
            code: Code::Escape,
            offset: 19,
            byte: None,
        };
        let text = "a stored 0xFF is followed by 0x00 or 0x80 (error 9 at offset 19)";
        assert_eq!(error.to_string(), text);
    }

    #[test]
    fn unknown_code_shows_its_number() {
        let error = Error {
            code: Code::from_number(99),
            offset: 3,
            byte: None,
        };
        assert_eq!(error.to_string(), "unknown code (error 99 at offset 3)");
    }

    #[test]
    fn bad_name_shows_its_index_and_byte() {
        let texts = [
            (3, Some(b'A'), "(error 11 at index 3, byte `A`)"),
            (0, Some(0x21), "(error 11 at index 0, byte `!`)"),
            (31, Some(0x7E), "(error 11 at index 31, byte `~`)"),
            (3, Some(0x20), "(error 11 at index 3, byte 0x20)"),
            (3, Some(0x00), "(error 11 at index 3, byte 0x00)"),
            (3, Some(0x7F), "(error 11 at index 3, byte 0x7F)"),
            (3, Some(0xFF), "(error 11 at index 3, byte 0xFF)"),
            (0, None, "(error 11 at index 0)"),
        ];
        for (offset, byte, end) in texts {
            let code = Code::BadName;
            let error = Error { code, offset, byte };
            let text = std::format!("the caller's variable name breaks the name rule {end}");
            assert_eq!(error.to_string(), text);
        }
    }
}
