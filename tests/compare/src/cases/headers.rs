//! Images, headers, and listings.

use super::every_call;
use crate::build::{self, Part};
use crate::context::{Context, Outcome};
use crate::request::Request;
use crate::rng::Rng;
use crate::twin::Twin;
use reference::header::{checksum, header_bytes};

/// The examples of document 01, with the answers that stand there.
pub fn examples(ctx: &mut Context) -> Outcome {
    ctx.recipe = "the examples of document 01".to_string();
    example_headers(ctx)?;
    example_sets(ctx)?;
    let with_area =
        |start: &[u8]| build::image(&[Part::common(build::padded(start, 16, 0x55)), Part::free(1)]);
    let faults: [(&[u8], u32, usize); 3] = [
        (b"a=1\0A=2\0\0", 8, 20),
        (b"a=\xFF\x80", 9, 19),
        (b"a=xxxxxxxxxxxxx\0", 7, 32),
    ];
    for (start, code, offset) in faults {
        let reply = Twin::new(&with_area(start)).call(ctx, &Request::Count)?;
        ctx.same(
            "the code and offset of a faulty area",
            (reply.code, reply.offset),
            (code, offset),
        )?;
    }
    let mut twin = Twin::new(&with_area(b"a=\xFF\x01\xFF\x01\0\0"));
    let reply = twin.call(ctx, &Request::Read(b"a".to_vec(), vec![9; 3]))?;
    ctx.same("two zeros and one kept byte", reply.buffer, vec![0, 0, 9])?;
    twin.call(ctx, &Request::Normalize)?;
    let wanted = build::padded(b"a=\xFF\x02\0", 16, 0);
    ctx.same("a normalized area", &twin.image()[16..32], &wanted[..])?;
    let mut twin = Twin::new(&build::base());
    let reply = twin.call(ctx, &Request::Listing(vec![0; 200]))?;
    let text = "at blocks sig name\n0 2 70 common\n32 1 7F wwwwwwwwwwww\n3 blocks\n";
    ctx.same(
        "the base image's listing",
        &reply.buffer[..reply.amounts[0]],
        text.as_bytes(),
    )
}

fn example_headers(ctx: &mut Context) -> Outcome {
    let base = build::base();
    let short = base[..32].to_vec();
    let (mut three, mut zero) = (short.clone(), short.clone());
    three[3] = 3;
    zero[3] = 0;
    let cases: [(&[u8], u32, usize); 6] = [
        (&base, 0, 2),
        (&[], 1, 0),
        (&base[..40], 1, 0),
        (&short, 0, 1),
        (&three, 3, 0),
        (&zero, 2, 0),
    ];
    for (image, code, partitions) in cases {
        let reply = Twin::new(image).call(ctx, &Request::Check)?;
        ctx.same(
            "a check",
            (reply.code, reply.offset, reply.amounts[0]),
            (code, 0, partitions),
        )?;
    }
    for (blocks, sum) in [(2, 0xFD), (3, 0xFE), (4, 0xFF), (5, 0x01)] {
        let mut image = build::image(&[Part::common(vec![0; 16 * (blocks - 1)])]);
        ctx.same("a checksum", image[1], sum)?;
        Twin::new(&image).call(ctx, &Request::Check)?;
        image[1] = image[1].wrapping_add(1);
        Twin::new(&image).call(ctx, &Request::Check)?;
    }
    Ok(())
}

fn example_sets(ctx: &mut Context) -> Outcome {
    let mut twin = Twin::new(&build::base());
    twin.call(ctx, &Request::Set(b"b".to_vec(), vec![0, 0, 0xFF]))?;
    let wanted = build::padded(b"a=1\0b=\xFF\x02\xFF\x81\0", 16, 0);
    ctx.same("the area of example 6", &twin.image()[16..32], &wanted[..])?;
    let reply = twin.call(ctx, &Request::Set(b"c".to_vec(), b"12".to_vec()))?;
    ctx.same("no room in example 7", reply.code, 13)?;
    let reply = twin.call(ctx, &Request::Set(b"c".to_vec(), b"1".to_vec()))?;
    ctx.same("the last byte of example 7", reply.code, 0)?;
    let pairs: [(Vec<u8>, &[u8]); 6] = [
        (vec![0; 127], b"\xFF\x7F"),
        (vec![0; 128], b"\xFF\x7F\xFF\x01"),
        (vec![0; 300], b"\xFF\x7F\xFF\x7F\xFF\x2E"),
        (vec![0xFF; 127], b"\xFF\xFF"),
        (vec![0xFE], b"\xFE"),
        (vec![], b""),
    ];
    for (value, stored) in pairs {
        let mut twin = Twin::new(&build::image(&[Part::common(vec![0; 16])]));
        twin.call(ctx, &Request::Set(b"v".to_vec(), value))?;
        let wanted = build::padded(&build::pair(b"v", stored), 16, 0);
        ctx.same(
            "a stored value of example 8",
            &twin.image()[16..32],
            &wanted[..],
        )?;
    }
    Ok(())
}

/// Image lengths of every kind, and all lengths up to some hundreds.
pub fn image_lengths(ctx: &mut Context) -> Outcome {
    let blocks: Vec<u8> = header_bytes(0x7F, 1, &[0x77; 12]).repeat(65_536 * 2 + 1);
    for length in 0..=ctx.amount(640) {
        ctx.recipe = format!("one-block partitions of free space cut to {length} bytes");
        every_call(ctx, &mut Twin::new(&blocks[..length]), b"a", b"1")?;
    }
    let top = 1_048_576;
    for length in [
        top - 16,
        top - 15,
        top - 1,
        top,
        top + 1,
        top + 15,
        top + 16,
        2 * top,
        2 * top + 16,
    ] {
        ctx.recipe = format!("one-block partitions of free space cut to {length} bytes");
        every_call(ctx, &mut Twin::new(&blocks[..length]), b"a", b"1")?;
    }
    for length in [0, 1, 15, 17, 40, top + 16] {
        ctx.recipe = format!("{length} bytes of 0x00");
        every_call(ctx, &mut Twin::new(&vec![0; length]), b"a", b"1")?;
    }
    Ok(())
}

/// Faults in each byte of each header of random images, with the checksum made right and not.
pub fn header_faults(ctx: &mut Context) -> Outcome {
    for round in 0..ctx.amount(150) {
        let image = build::random_image(&mut ctx.rng, 3, 12, 2);
        let all = reference::header::partitions(&image).expect("a built image is accepted");
        for (index, part) in all.iter().enumerate() {
            ctx.recipe = format!("random image {round}, a fault in header {index}");
            for at in 0..16 {
                let mut faulty = image.clone();
                faulty[part.offset + at] ^= 1 << ctx.rng.below(8);
                header_calls(ctx, faulty, index)?;
                let mut faulty = image.clone();
                faulty[part.offset + at] = ctx.rng.byte();
                header_calls(ctx, faulty, index)?;
            }
            header_lengths(ctx, &image, part.offset, index)?;
        }
    }
    many_headers(ctx)
}

/// Faults in each header of a row of 200 partitions.
fn many_headers(ctx: &mut Context) -> Outcome {
    let sizes: Vec<usize> = (0..200).map(|_| ctx.rng.between(1, 3)).collect();
    let parts: Vec<Part> = sizes.iter().map(|&blocks| Part::free(blocks)).collect();
    let image = build::image(&parts);
    let mut offset = 0;
    for (index, blocks) in sizes.into_iter().enumerate() {
        ctx.recipe = format!("200 partitions, a fault in header {index}");
        let left = ((image.len() - offset) / 16) as u16;
        let zero = header_bytes(0x7F, 0, &[0x77; 12]);
        let long = header_bytes(0x7F, left + 1, &[0x77; 12]);
        let mut wrong = header_bytes(0x7F, blocks as u16, &[0x77; 12]);
        wrong[1] ^= 0x10;
        for header in [zero, long, wrong] {
            let mut faulty = image.clone();
            faulty[offset..offset + 16].copy_from_slice(&header);
            header_calls(ctx, faulty, index)?;
        }
        offset += 16 * blocks;
    }
    Ok(())
}

/// Gives a header other lengths, with the checksum kept, made right, and cleared.
fn header_lengths(ctx: &mut Context, image: &[u8], offset: usize, index: usize) -> Outcome {
    let own = u16::from_be_bytes([image[offset + 2], image[offset + 3]]);
    let left = ((image.len() - offset) / 16) as u16;
    let lengths = [
        0,
        1,
        own - 1,
        own + 1,
        left,
        left + 1,
        own << 8,
        own | 0x100,
        4_096,
        32_768,
        65_535,
    ];
    for length in lengths {
        for sum in 0..3 {
            let mut faulty = image.to_vec();
            let mut name = [0; 12];
            name.copy_from_slice(&image[offset + 4..offset + 16]);
            faulty[offset + 2..offset + 4].copy_from_slice(&length.to_be_bytes());
            match sum {
                0 => {}
                1 => faulty[offset + 1] = checksum(image[offset], length, &name),
                _ => faulty[offset + 1] = 0,
            }
            header_calls(ctx, faulty, index)?;
        }
    }
    let mut faulty = image.to_vec();
    faulty[offset..offset + 16].fill(0);
    header_calls(ctx, faulty, index)
}

fn header_calls(ctx: &mut Context, image: Vec<u8>, index: usize) -> Outcome {
    let mut twin = Twin::new(&image);
    twin.call(ctx, &Request::Check)?;
    twin.call(ctx, &Request::Partition(index))?;
    twin.call(ctx, &Request::Partition(index + 1))?;
    twin.call(ctx, &Request::Find(image[0], image[4..16].to_vec()))?;
    twin.call(ctx, &Request::Listing(vec![0xB8; 400]))?;
    twin.call(ctx, &Request::Set(b"a".to_vec(), b"2".to_vec()))?;
    twin.call(ctx, &Request::Remove(b"a".to_vec()))?;
    twin.call(ctx, &Request::Count)?;
    Ok(())
}

/// Headers with every stored checksum, and partitions of many lengths.
pub fn checksums(ctx: &mut Context) -> Outcome {
    let mut twin = Twin::new(&[]);
    for round in 0..ctx.amount(600) {
        let mut header = checksum_header(&mut ctx.rng, round);
        ctx.recipe = format!("one header, round {round}, with each stored checksum");
        for sum in 0..=255 {
            header[1] = sum;
            twin.load(&header);
            twin.call(ctx, &Request::Check)?;
        }
    }
    let long = [4_095, 4_096, 4_097, 32_767, 32_768, 65_535];
    for blocks in (1..=ctx.amount(600)).chain(long) {
        ctx.recipe = format!("free space of {blocks} blocks");
        let mut image = build::image(&[Part::free(blocks)]);
        let right = image[1];
        for sum in [right, right.wrapping_add(1), right.wrapping_sub(1), 0, 0xFF] {
            image[1] = sum;
            twin.load(&image);
            twin.call(ctx, &Request::Check)?;
            twin.call(ctx, &Request::Partition(0))?;
        }
    }
    Ok(())
}

/// A one-block header whose covered bytes are few, many, or add up to a multiple of 255.
fn checksum_header(rng: &mut Rng, round: usize) -> [u8; 16] {
    let mut header = [0; 16];
    header[3] = 1;
    match round {
        0 => {}
        1 => header[4..].fill(0xFF),
        2 => header[4] = 0xFE,
        3 => header[4..6].copy_from_slice(&[0xFF, 0xFE]),
        4 => header[0] = 0xFE,
        5 => header[15] = 0xFF,
        _ => {
            for at in [0, 4, 5, 6, 7, 8, 9, 10, 11, 12, 13, 14, 15] {
                header[at] = rng.byte();
            }
        }
    }
    header
}

/// One partition for every plain sum of the covered bytes; the sum 0 would need a length of zero.
pub fn plain_sums(ctx: &mut Context) -> Outcome {
    let step = if ctx.quick { 11 } else { 1 };
    let mut twin = Twin::new(&[]);
    for sum in (1..=15 * 255).step_by(step) {
        ctx.recipe = format!("one partition whose covered bytes add up to {sum}");
        let mut image = image_of_sum(sum);
        let right = image[1];
        ctx.same("the closed form", usize::from(right), (sum - 1) % 255 + 1)?;
        for stored in [right, right.wrapping_add(1), right.wrapping_sub(1)] {
            image[1] = stored;
            twin.load(&image);
            let reply = twin.call(ctx, &Request::Check)?;
            let code = if stored == right { 0 } else { 4 };
            ctx.same("the code of the check", reply.code, code)?;
        }
    }
    Ok(())
}

/// One partition whose covered bytes add up to a sum above 0, in as few blocks as that allows.
fn image_of_sum(sum: usize) -> Vec<u8> {
    let mut covered = [0u8; 15]; // signature, name, low and high byte of the length
    covered[13] = 1;
    let mut left = sum - 1;
    for byte in &mut covered {
        let part = left.min(usize::from(0xFF - *byte));
        *byte += part as u8;
        left -= part;
    }
    assert_eq!(left, 0, "fifteen bytes add up to 3,825 at most");
    let mut name = [0; 12];
    name.copy_from_slice(&covered[1..13]);
    let blocks = u16::from_be_bytes([covered[14], covered[13]]);
    let mut image = header_bytes(covered[0], blocks, &name).to_vec();
    image.resize(16 * usize::from(blocks), 0);
    image
}

/// Listings of odd names into texts that are short, exact and long.
pub fn listings(ctx: &mut Context) -> Outcome {
    for round in 0..ctx.amount(3_000) {
        ctx.recipe = format!("random image {round} of partitions with odd names");
        let mut image = odd_names(&mut ctx.rng);
        if ctx.rng.once_in(4) {
            let at = ctx.rng.below(image.len());
            image[at] ^= 1 << ctx.rng.below(8);
        }
        listing_three_ways(ctx, &image)?;
    }
    let one_block = header_bytes(0x00, 1, &[0x20; 12]);
    for blocks in [1, 2, 4_095, 4_096, 4_097] {
        ctx.recipe = format!("{blocks} partitions of one block");
        listing_three_ways(ctx, &one_block.repeat(blocks))?;
    }
    for length in [
        0, 1, 40, 65_535, 65_536, 65_537, 65_552, 1_048_576, 1_048_592,
    ] {
        ctx.recipe = format!("{length} bytes of 0x00");
        listing_three_ways(ctx, &vec![0; length])?;
    }
    Ok(())
}

fn odd_names(rng: &mut Rng) -> Vec<u8> {
    let mut parts = Vec::new();
    for _ in 0..rng.between(1, 5) {
        let length = rng.below(13);
        let name: Vec<u8> = (0..length)
            .map(|_| match rng.below(3) {
                0 => *rng.pick(&[0x00, 0x01, 0x20, 0x21, 0x7E, 0x7F, 0x80, 0xFF, b'?']),
                1 => rng.byte(),
                _ => rng.between(0x21, 0x7E) as u8,
            })
            .collect();
        let blocks = *rng.pick(&[0, 0, 1, 9, 10, 99, 100]);
        parts.push(Part::new(rng.byte(), &name, vec![0; 16 * blocks]));
    }
    build::image(&parts)
}

fn listing_three_ways(ctx: &mut Context, image: &[u8]) -> Outcome {
    let length = reference::listing(image).len();
    let mut twin = Twin::new(image);
    for room in [0, 1, length - 1, length, length + 9] {
        twin.call(ctx, &Request::Listing(vec![0xB9; room]))?;
    }
    Ok(())
}
