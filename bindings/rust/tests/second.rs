//! Images with a second partition of signature 0x70 and name `common`: the calls on variables refuse them, the others take
//! them.

use nvram::{Code, Error};

/// Two blocks of free space, then `common` of two blocks with the variable `a`.
const FIRST: &[u8; 64] = b"\x7F\x1B\x00\x02wwwwwwwwwwwwxxxxxxxxxxxxxxxx\
                           \x70\xFD\x00\x02common\0\0\0\0\0\0a=1\0\0\0\0\0\0\0\0\0\0\0\0\0";

/// The offset of the header of that `common`.
const FIRST_OFFSET: usize = 32;

/// A `common` of two blocks with the variable `a`, and a leftover byte after the 0x00 of its name.
const SECOND: &[u8; 32] = b"\x70\x76\x00\x02common\0x\0\0\0\0a=2\0\0\0\0\0\0\0\0\0\0\0\0\0";

/// A partition of one block with signature 0x70 and name `common-x`.
const NEAR: &[u8; 16] = b"\x70\xA2\x00\x01common-x\0\0\0\0";

/// The errors of all calls on variables; the image and the buffer keep their bytes.
fn refused(image: &[u8], name: &[u8]) -> [Error; 5] {
    let (mut kept, mut buffer) = (image.to_vec(), [9; 4]);
    let errors = [
        nvram::count(&kept).unwrap_err(),
        nvram::read(&kept, name, &mut buffer).unwrap_err(),
        nvram::set(&mut kept, name, b"1").unwrap_err(),
        nvram::remove(&mut kept, name).unwrap_err(),
        nvram::normalize(&mut kept).unwrap_err(),
    ];
    assert_eq!((kept.as_slice(), buffer), (image, [9; 4]));
    errors
}

/// The images with a second `common`, each with the offset of its header and the number of partitions.
fn images() -> [(Vec<u8>, usize, usize); 3] {
    let two = [&FIRST[..], SECOND].concat();
    let apart = [&FIRST[..], NEAR, SECOND].concat();
    let three = [&FIRST[..], SECOND, NEAR, SECOND].concat();
    [(two, 64, 3), (apart, 80, 4), (three, 64, 5)]
}

#[test]
fn calls_on_variables_refuse_a_second_common() {
    for (image, second, _) in images() {
        for name in [&b"a"[..], b"unknown"] {
            for error in refused(&image, name) {
                assert_eq!(error.code, Code::RepeatedPartition);
                assert_eq!((error.offset, error.byte), (second, None));
                let end = format!("the name common (error 20 at offset {second})");
                let text = format!("a second partition has signature 0x70 and {end}");
                assert_eq!(error.to_string(), text);
            }
        }
    }
}

#[test]
fn other_calls_take_a_second_common() {
    for (image, second, partitions) in images() {
        assert_eq!(nvram::check(&image), Ok(partitions));
        let first = nvram::partition(&image, 1).unwrap();
        assert_eq!(nvram::find(&image, 0x70, b"common"), Ok(first));
        assert_eq!((first.header, first.blocks), (FIRST_OFFSET, 2));
        assert!(image[first.data()].starts_with(b"a=1\0"));
        let headers: Vec<usize> = (0..partitions)
            .map(|index| nvram::partition(&image, index).unwrap().header)
            .collect();
        assert!(headers.contains(&second));
        let mut text = [0; 200];
        assert!(nvram::listing(&image, &mut text).is_ok_and(|text| text.starts_with(b"at blocks")));
    }
}

#[test]
fn other_refusals_come_first() {
    for (image, second, _) in images() {
        let bad_name = nvram::read(&image, b"bootDevice", &mut []).unwrap_err();
        assert_eq!((bad_name.code, bad_name.offset), (Code::BadName, 4));
        let length = nvram::count(&image[..image.len() - 1]).unwrap_err();
        assert_eq!((length.code, length.offset), (Code::ImageLength, 0));
        let mut broken = [&image[..], NEAR].concat();
        broken[image.len() + 1] ^= 1;
        for error in refused(&broken, b"a") {
            assert_eq!((error.code, error.offset), (Code::Checksum, image.len()));
        }
        broken[image.len() + 1] ^= 1;
        for error in refused(&broken, b"a") {
            assert_eq!(
                (error.code, error.offset),
                (Code::RepeatedPartition, second)
            );
        }
    }
}

#[test]
fn near_misses_are_no_second_common() {
    let mut image = [NEAR, &FIRST[..], NEAR].concat();
    assert_eq!(nvram::count(&image), Ok(1));
    assert_eq!(nvram::set(&mut image, b"b", b"2"), Ok(()));
    let mut buffer = [0; 4];
    assert_eq!(nvram::read(&image, b"b", &mut buffer), Ok(&b"2"[..]));
    assert_eq!(&image[..16], NEAR);
    assert_eq!(&image[80..], NEAR);
}
