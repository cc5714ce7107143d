//! The examples 1 to 12 of document 01, the names of partitions, a second partition for the variables, and the name rule
//! with the index of the first wrong byte.

use crate::header::{checksum, header_bytes, padded_name, same_name};
use crate::model::{self, canonical_area, Call, Model};
use crate::*;

const COMMON: [u8; 12] = *b"common\0\0\0\0\0\0";
const FREE: [u8; 12] = [0x77; 12];

/// The base image E of 48 bytes.
fn base() -> Vec<u8> {
    let mut image = vec![0x70, 0xFD, 0x00, 0x02, 0x63, 0x6F, 0x6D, 0x6D, 0x6F, 0x6E];
    image.extend([0; 6]);
    image.extend([0x61, 0x3D, 0x31, 0x00]);
    image.extend([0; 12]);
    image.extend([0x7F, 0x1A, 0x00, 0x01]);
    image.extend([0x77; 12]);
    image
}

/// The base image with another start of its data area, the rest of which is 0x55.
fn with_area(start: &[u8]) -> Vec<u8> {
    let mut image = base();
    image[16..32].fill(0x55);
    image[16..16 + start.len()].copy_from_slice(start);
    image
}

fn area_of(image: &[u8]) -> &[u8] {
    &image[16..32]
}

fn padded(start: &[u8]) -> Vec<u8> {
    let mut area = start.to_vec();
    area.resize(16, 0);
    area
}

#[test]
fn example_1_checksums_of_common() {
    let sums = [2, 3, 4, 5].map(|blocks| checksum(0x70, blocks, &COMMON));
    assert_eq!(sums, [0xFD, 0xFE, 0xFF, 0x01]);
}

#[test]
fn example_2_checksum_of_free_space() {
    assert_eq!(checksum(0x7F, 1, &FREE), 0x1A);
}

#[test]
fn checksum_agrees_with_the_formula() {
    for length in 0..=u16::MAX {
        for (signature, name) in [
            (0x70, COMMON),
            (0x7F, FREE),
            (0, [0; 12]),
            (0xFF, [0xFF; 12]),
        ] {
            let bytes = [signature]
                .into_iter()
                .chain(length.to_be_bytes())
                .chain(name);
            let sum: u32 = bytes.map(u32::from).sum();
            let wanted = if sum == 0 { 0 } else { (sum - 1) % 255 + 1 };
            assert_eq!(u32::from(checksum(signature, length, &name)), wanted);
        }
    }
}

#[test]
fn example_3_base_image_is_accepted() {
    assert_eq!(check(&base()), Ok(2));
}

#[test]
fn example_4_image_lengths() {
    assert_eq!(check(&[]), Err(Refusal::plain(1)));
    assert_eq!(check(&base()[..40]), Err(Refusal::plain(1)));
}

#[test]
fn example_5_first_partition_alone() {
    let mut image = base()[..32].to_vec();
    assert_eq!(check(&image), Ok(1));
    image[3] = 3;
    assert_eq!(check(&image), Err(Refusal::at(3, 0)));
    image[3] = 0;
    assert_eq!(check(&image), Err(Refusal::at(2, 0)));
}

#[test]
fn checksum_of_zero_needs_a_length_of_zero() {
    assert_eq!(check(&[0; 16]), Err(Refusal::at(2, 0)));
    assert!((1..=u16::MAX).all(|length| checksum(0, length, &[0; 12]) != 0));
}

#[test]
fn examples_6_and_7_sets() {
    let mut image = base();
    assert_eq!(set(&mut image, b"b", &[0, 0, 0xFF]), Ok(()));
    let wanted = padded(b"a=1\0b=\xFF\x02\xFF\x81\0");
    assert_eq!(area_of(&image), wanted);
    let before = image.clone();
    assert_eq!(set(&mut image, b"c", b"12"), Err(Refusal::plain(13)));
    assert_eq!(image, before);
    assert_eq!(set(&mut image, b"c", b"1"), Ok(()));
    assert_eq!(area_of(&image), b"a=1\0b=\xFF\x02\xFF\x81\0c=1\0\0");
}

#[test]
fn example_8_values() {
    let pairs: [(&[u8], &[u8]); 6] = [
        (&[0; 127], &[0xFF, 0x7F]),
        (&[0; 128], &[0xFF, 0x7F, 0xFF, 0x01]),
        (&[0; 300], &[0xFF, 0x7F, 0xFF, 0x7F, 0xFF, 0x2E]),
        (&[0xFF; 127], &[0xFF, 0xFF]),
        (&[0xFE], &[0xFE]),
        (&[], &[]),
    ];
    for (plain, stored) in pairs {
        assert_eq!(value::encode(plain), stored);
        assert_eq!(value::decode(stored).as_deref(), Some(plain));
        assert_eq!(model::new_size(b"a", plain), stored.len() + 3);
    }
}

#[test]
fn example_9_split_run() {
    let mut image = with_area(b"a=\xFF\x01\xFF\x01\0\0");
    let mut buffer = [9; 3];
    assert_eq!(read(&image, b"a", &mut buffer), Ok(2));
    assert_eq!(buffer, [0, 0, 9]);
    assert_eq!(normalize(&mut image), Ok(()));
    assert_eq!(area_of(&image), padded(b"a=\xFF\x02\0"));
    let entries = Model::of_image(&image).unwrap().entries;
    assert_eq!(area_of(&image), canonical_area(16, &entries));
}

#[test]
fn example_10_faults_in_the_area() {
    let image = with_area(b"a=1\0A=2\0\0");
    assert_eq!(count(&image), Err(Refusal::at(8, 20)));
    let image = with_area(b"a=\xFF\x80");
    assert_eq!(count(&image), Err(Refusal::at(9, 19)));
}

#[test]
fn example_11_no_ending_byte() {
    let image = with_area(b"a=xxxxxxxxxxxxx\0");
    assert_eq!(count(&image), Err(Refusal::at(7, 32)));
}

#[test]
fn example_12_long_partitions() {
    let name = padded_name(b"common").unwrap();
    let mut image = vec![0; 65_536 * 16];
    image[..16].copy_from_slice(&header_bytes(0x70, 4_096, &name));
    let rest = header_bytes(0x7F, 61_440, &FREE);
    image[65_536..65_552].copy_from_slice(&rest);
    assert_eq!(variables_range(&image).map(|range| range.len()), Ok(65_520));
    image[..16].copy_from_slice(&header_bytes(0x70, 65_535, &name));
    let last = image.len() - 16;
    assert_eq!(check(&image), Err(Refusal::at(2, last)));
    image[last..].copy_from_slice(&header_bytes(0x7F, 1, &FREE));
    assert_eq!(check(&image), Ok(2));
    assert_eq!(
        variables_range(&image).map(|range| range.len()),
        Ok(1_048_544)
    );
}

#[test]
fn listing_of_the_base_image() {
    let wanted = "at blocks sig name\n0 2 70 common\n32 1 7F wwwwwwwwwwww\n3 blocks\n";
    assert_eq!(listing(&base()), wanted.as_bytes());
    let mut image = base();
    image[1] = 0;
    assert_eq!(listing(&image), b"refused 4 at 0\n");
    assert_eq!(listing(&vec![0; 65_537]), b"too long\n");
}

#[test]
fn names_of_partitions_end_at_their_zero() {
    let pairs: [(&[u8; 12], &[u8; 12], bool); 9] = [
        (&COMMON, b"common\0x\0\0\0\0", true),
        (b"common\0x\0\0\0\0", b"common\0\0\0\0\0y", true),
        (b"\0xxxxxxxxxxx", &[0; 12], true),
        (b"common-log-\0", b"common-log-1", false),
        (b"common-log-1", b"common-log-1", true),
        (b"common-log-1", b"common-log-2", false),
        (&COMMON, b"common-log-1", false),
        (&COMMON, b"comm\0on\0\0\0\0\0", false),
        (&COMMON, b"Common\0\0\0\0\0\0", false),
    ];
    for (left, right, wanted) in pairs {
        assert_eq!(same_name(left, right), wanted);
        assert_eq!(same_name(right, left), wanted);
    }
}

#[test]
fn partition_is_found_up_to_the_zero_of_its_name() {
    let leftover = *b"common\0x\0\0\0\0";
    let mut image = base();
    image[..16].copy_from_slice(&header_bytes(0x70, 2, &leftover));
    let names: [(&[u8], bool); 8] = [
        (b"common", true),
        (b"common\0", true),
        (b"common\0y", true),
        (b"common\0\0\0\0\0\0", true),
        (b"common\0\0\0\0\0\0\0", false),
        (b"comm", false),
        (b"comm\0on", false),
        (b"", false),
    ];
    for (name, there) in names {
        let wanted = if there { Ok(0) } else { Err(Refusal::plain(6)) };
        assert_eq!(find(&image, 0x70, name).map(|p| p.offset), wanted);
    }
    assert_eq!(count(&image), Ok(1));
    set(&mut image, b"a", b"2").unwrap();
    assert_eq!(image[4..16], leftover);
    let two = [
        header_bytes(0x70, 1, &leftover),
        header_bytes(0x70, 1, &COMMON),
    ]
    .concat();
    assert_eq!(find(&two, 0x70, b"common").map(|p| p.offset), Ok(0));
}

/// A partition of two blocks, whose area holds the variable `a`.
fn two_blocks(signature: u8, name: &[u8; 12]) -> Vec<u8> {
    let header = header_bytes(signature, 2, name);
    [&header[..], &padded(b"a=1\0")].concat()
}

/// Images with two or three partitions for the variables, each with the offset of the second one's header.
fn second_commons() -> Vec<(Vec<u8>, usize)> {
    let common = two_blocks(0x70, &COMMON);
    let leftover = two_blocks(0x70, b"common\0x\0\0\0\0");
    let empty = header_bytes(0x70, 1, &COMMON).to_vec();
    let free = header_bytes(0x7F, 1, &FREE).to_vec();
    let near = two_blocks(0x70, b"common-x\0\0\0\0");
    let other = two_blocks(0x71, &COMMON);
    let cut = with_area(b"a=xxxxxxxxxxxxxx")[..32].to_vec();
    let images: [(&[&[u8]], usize); 9] = [
        (&[&common, &common], 32),
        (&[&empty, &empty], 16),
        (&[&common, &leftover], 32),
        (&[&leftover, &common], 32),
        (&[&common, &empty, &leftover], 32),
        (&[&free, &common, &near, &free, &common], 96),
        (&[&near, &other, &empty, &other, &near, &common, &free], 144),
        (&[&common, &other, &common, &common], 64),
        (&[&cut, &free, &common], 48),
    ];
    let images = images.map(|(parts, second)| (parts.concat(), second));
    images.into_iter().collect()
}

/// The refusals of all calls on variables, those by a name among them; the image and the buffer keep their bytes.
fn refusals(image: &[u8], name: &[u8]) -> [Refusal; 5] {
    let (mut kept, mut buffer) = (image.to_vec(), [9; 3]);
    let refusals = [
        count(&kept).unwrap_err(),
        read(&kept, name, &mut buffer).unwrap_err(),
        set(&mut kept, name, &[7; 100]).unwrap_err(),
        remove(&mut kept, name).unwrap_err(),
        normalize(&mut kept).unwrap_err(),
    ];
    assert_eq!((&kept[..], buffer), (image, [9; 3]));
    refusals
}

#[test]
fn second_common_is_refused_by_the_calls_on_variables() {
    for (image, second) in second_commons() {
        let refusal = Refusal::at(20, second);
        for name in [&b"a"[..], b"unknown"] {
            assert_eq!(refusals(&image, name), [refusal; 5]);
        }
        assert_eq!(variables_range(&image), Err(refusal));
        assert_eq!(Model::of_image(&image), Err(refusal));
    }
}

#[test]
fn second_common_is_taken_by_the_other_calls() {
    for (image, second) in second_commons() {
        let partitions = check(&image).unwrap();
        let all: Vec<Partition> = (0..partitions)
            .map(|index| partition(&image, index).unwrap())
            .collect();
        assert_eq!(partition(&image, partitions), Err(Refusal::plain(6)));
        assert_eq!(all.last().map(Partition::end), Some(image.len()));
        let is_common = |p: &&Partition| p.signature == 0x70 && p.name.starts_with(b"common\0");
        let common: Vec<&Partition> = all.iter().filter(is_common).collect();
        assert_eq!(common[1].offset, second);
        assert_eq!(find(&image, 0x70, b"common").as_ref(), Ok(common[0]));
        assert!(listing(&image).starts_with(b"at blocks"));
    }
}

#[test]
fn second_common_comes_after_a_bad_name_the_length_and_the_headers() {
    for (image, second) in second_commons() {
        assert_eq!(refusals(&image, b"aB")[1..4], [Refusal::at(11, 1); 3]);
        let longer = [&image[..], &[0]].concat();
        assert_eq!(refusals(&longer, b"a"), [Refusal::plain(1); 5]);
        let good = [&image[..], &header_bytes(0x7F, 1, &FREE)].concat();
        assert_eq!(refusals(&good, b"a"), [Refusal::at(20, second); 5]);
        let last = image.len();
        for (at, byte, code) in [(3, 0, 2), (3, 2, 3), (1, 0x1B, 4)] {
            let mut broken = good.clone();
            broken[last + at] = byte;
            assert_eq!(refusals(&broken, b"a"), [Refusal::at(code, last); 5]);
        }
    }
}

#[test]
fn near_misses_are_no_second_common() {
    let near: [(u8, &[u8; 12]); 8] = [
        (0x70, b"common-x\0\0\0\0"),
        (0x70, b"commons\0\0\0\0\0"),
        (0x70, b"commo\0\0\0\0\0\0\0"),
        (0x70, b"comm\0on\0\0\0\0\0"),
        (0x70, b"Common\0\0\0\0\0\0"),
        (0x70, b"common-log-1"),
        (0x71, &COMMON),
        (0x7F, &COMMON),
    ];
    for (signature, name) in near {
        let other = two_blocks(signature, name);
        let two = other.repeat(2);
        assert_eq!(refusals(&two, b"a"), [Refusal::plain(6); 5]);
        let mut image = [&other[..], &base(), &other].concat();
        assert_eq!(variables_range(&image), Ok(48..64));
        assert_eq!(count(&image), Ok(1));
        assert_eq!(set(&mut image, b"b", b"2"), Ok(()));
        assert_eq!(image[48..64], padded(b"a=1\0b=2\0"));
        assert_eq!((&image[..32], &image[80..]), (&other[..], &other[..]));
    }
}

#[test]
fn name_rule_allows_61_bytes() {
    let allowed: Vec<u8> = (0..=255).filter(|&byte| area::is_name_byte(byte)).collect();
    assert_eq!(allowed.len(), 61);
}

/// Names, each with the index of its first wrong byte, or nothing for a good name.
fn names() -> Vec<(Vec<u8>, Option<usize>)> {
    let mut names: Vec<(Vec<u8>, Option<usize>)> = vec![
        (b"".to_vec(), Some(0)),
        (b"a".to_vec(), None),
        (b"A".to_vec(), Some(0)),
        (b"boot device".to_vec(), Some(4)),
        (b"bootDevicePath".to_vec(), Some(4)),
        (b"=".to_vec(), Some(0)),
        (b"a=b".to_vec(), Some(1)),
        (b"ab=".to_vec(), Some(2)),
        (b"a\0".to_vec(), Some(1)),
        (vec![b'n'; 31], None),
        (vec![b'n'; 32], Some(31)),
        (vec![b'n'; 33], Some(31)),
        (vec![b'n'; 1_000_000], Some(31)),
    ];
    for length in [31, 32, 33] {
        for at in 0..length {
            let mut name = vec![b'n'; length];
            name[at..].fill(b'N');
            names.push((name, Some(at.min(31))));
        }
    }
    names
}

#[test]
fn caller_name_is_refused_at_its_first_wrong_byte() {
    let (mut image, mut buffer) = (base(), [9; 3]);
    for (name, index) in names() {
        let wanted = index.map_or(Ok(()), |index| Err(Refusal::at(11, index)));
        assert_eq!(area::check_name(&name), wanted);
        let Err(refusal) = wanted else { continue };
        assert_eq!(read(&image, &name, &mut buffer), Err(refusal));
        assert_eq!(set(&mut image, &name, b"1"), Err(refusal));
        assert_eq!(remove(&mut image, &name), Err(refusal));
    }
    assert_eq!((image, buffer), (base(), [9; 3]));
}

#[test]
fn caller_name_is_refused_before_the_image() {
    let refusal = Refusal::at(11, 2);
    for mut image in [vec![], base()[..40].to_vec(), vec![0; 16], with_area(b"A=")] {
        assert_eq!(read(&image, b"ab c", &mut []), Err(refusal));
        assert_eq!(set(&mut image, b"ab c", b"1"), Err(refusal));
        assert_eq!(remove(&mut image, b"ab c"), Err(refusal));
    }
}

#[test]
fn model_answers_the_index_of_the_first_wrong_byte() {
    let mut model = Model::of_image(&base()).unwrap();
    let before = model.clone();
    for (name, index) in names() {
        let Some(index) = index else { continue };
        let (value, buffer) = (vec![], vec![9; 3]);
        let name = || name.clone();
        let read = model.step(&Call::Read {
            name: name(),
            buffer,
        });
        let set = model.step(&Call::Set {
            name: name(),
            value,
        });
        let remove = model.step(&Call::Remove { name: name() });
        assert_eq!(read.buffer, [9; 3]);
        for answer in [read, set, remove] {
            assert_eq!((answer.code, answer.offset, answer.amount), (11, index, 0));
        }
    }
    assert_eq!(model, before);
}

#[test]
fn stored_name_is_refused_at_its_first_wrong_byte() {
    for (name, index) in names() {
        let pairs = [b"c=1\0", &name[..], b"=v\0\0"].concat();
        let wanted = match index {
            None => Ok(2),
            Some(index) if index > 0 && name[index] == b'=' => Ok(2),
            Some(index) => Err(Refusal::at(8, 20 + index)),
        };
        assert_eq!(area::parse(&pairs, 16).map(|pairs| pairs.len()), wanted);
    }
}

#[test]
fn stored_name_that_the_area_cuts() {
    let ends: [(&[u8], Result<usize, Refusal>); 8] = [
        (b"", Err(Refusal::at(7, 20))),
        (b"\0", Ok(1)),
        (b"ab", Err(Refusal::at(7, 22))),
        (b"=", Err(Refusal::at(8, 20))),
        (b"aBC", Err(Refusal::at(8, 21))),
        (b"ab\0", Err(Refusal::at(8, 22))),
        (&[b'n'; 31], Err(Refusal::at(7, 51))),
        (&[b'n'; 32], Err(Refusal::at(8, 51))),
    ];
    for (end, wanted) in ends {
        let pairs = area::parse(&[b"c=1\0", end].concat(), 16);
        assert_eq!(pairs.map(|pairs| pairs.len()), wanted);
    }
}
