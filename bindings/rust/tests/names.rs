//! Variable names that break the name rule: the index of the first wrong byte, that byte, and the message.

use nvram::{Code, Error};

/// An image of one partition with room for some variables, and `a` with the value 1.
fn image() -> Vec<u8> {
    let mut image = b"\x70\xFE\x00\x03common\0\0\0\0\0\0a=1".to_vec();
    image.resize(48, 0);
    image
}

/// The errors of read, set and remove by a name; the image and the buffer keep their bytes.
fn refused(image: &[u8], name: &[u8]) -> [Error; 3] {
    let (mut kept, mut buffer) = (image.to_vec(), [9; 4]);
    let errors = [
        nvram::read(&kept, name, &mut buffer).unwrap_err(),
        nvram::set(&mut kept, name, b"1").unwrap_err(),
        nvram::remove(&mut kept, name).unwrap_err(),
    ];
    assert_eq!((kept.as_slice(), buffer), (image, [9; 4]));
    errors
}

#[test]
fn wrong_byte_is_told_with_its_index() {
    let (mut last, mut past) = ([b'n'; 40], [b'n'; 40]);
    last[30] = 0x80;
    past[32] = 0x80;
    let names: [(&[u8], usize, Option<u8>); 10] = [
        (b"", 0, None),
        (b"A", 0, Some(b'A')),
        (b"bootDevice", 4, Some(b'D')),
        (b"boot device:A", 4, Some(b' ')),
        (b"=", 0, Some(b'=')),
        (b"a=1", 1, Some(b'=')),
        (b"ab\0", 2, Some(0)),
        (&[b'n'; 32], 31, Some(b'n')),
        (&last, 30, Some(0x80)),
        (&past, 31, Some(b'n')),
    ];
    let faulty = vec![0; 7];
    for image in [image(), faulty] {
        for (name, index, byte) in names {
            for error in refused(&image, name) {
                assert_eq!(error.code, Code::BadName);
                assert_eq!((error.offset, error.byte), (index, byte));
            }
        }
    }
}

#[test]
fn message_has_the_index_and_the_byte() {
    let messages: [(&[u8], &str); 4] = [
        (b"bootDevice", "(error 11 at index 4, byte `D`)"),
        (b"boot device", "(error 11 at index 4, byte 0x20)"),
        (&[b'n'; 33], "(error 11 at index 31, byte `n`)"),
        (b"", "(error 11 at index 0)"),
    ];
    for (name, end) in messages {
        for error in refused(&image(), name) {
            let text = format!("the caller's variable name breaks the name rule {end}");
            assert_eq!(error.to_string(), text);
        }
    }
}

#[test]
fn other_errors_have_no_byte() {
    let image = image();
    let unknown = nvram::read(&image, b"b", &mut []).unwrap_err();
    assert_eq!((unknown.code, unknown.byte), (Code::NoVariable, None));
    let no_room = nvram::set(&mut image.clone(), b"b", &[b'v'; 40]).unwrap_err();
    assert_eq!((no_room.code, no_room.byte), (Code::NoRoom, None));
    let length = nvram::remove(&mut [], b"b").unwrap_err();
    assert_eq!((length.code, length.byte), (Code::ImageLength, None));
}

#[test]
fn longest_name_is_good() {
    let mut image = image();
    image.resize(16 * 6, 0);
    image[..4].copy_from_slice(b"\x70\x02\x00\x06");
    assert_eq!(nvram::set(&mut image, &[b'n'; 31], b"1"), Ok(()));
}
