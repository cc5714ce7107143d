//! Data areas that are faulty at every byte.

use super::{every_call, questions};
use crate::build::{self, Part};
use crate::context::{Context, Outcome};
use crate::request::Request;
use crate::rng::Rng;
use crate::twin::Twin;

/// The bytes of the small areas.
const ALPHABET: [u8; 8] = [0x00, 0xFF, b'=', b'a', b'A', 0x80, 0x01, b'b'];

/// The byte string with a number, counted in the alphabet's base.
fn small_area(length: u32, mut number: usize) -> Vec<u8> {
    (0..length)
        .map(|_| {
            let byte = ALPHABET[number % ALPHABET.len()];
            number /= ALPHABET.len();
            byte
        })
        .collect()
}

/// Runs over all byte strings of the alphabet up to 5 bytes, or up to 4 in a quick run.
fn all_small(ctx: &mut Context, mut run: impl FnMut(&mut Context, &[u8]) -> Outcome) -> Outcome {
    let longest = if ctx.quick { 4 } else { 5 };
    for length in 0..=longest {
        for number in 0..ALPHABET.len().pow(length) {
            run(ctx, &small_area(length, number))?;
        }
    }
    Ok(())
}

/// The calls made on each small area: the edits each start from the area itself.
fn small_calls(ctx: &mut Context, twin: &mut Twin, image: &[u8]) -> Outcome {
    let name = || b"a".to_vec();
    twin.load(image);
    let reply = twin.call(ctx, &Request::Count)?;
    twin.call(ctx, &Request::Read(name(), vec![0xBA; 1]))?;
    twin.call(ctx, &Request::Set(name(), vec![0x00, b'=']))?;
    if reply.code == 0 {
        twin.load(image);
    }
    twin.call(ctx, &Request::Remove(name()))?;
    if reply.code == 0 {
        twin.load(image);
    }
    twin.call(ctx, &Request::Normalize)?;
    Ok(())
}

/// Every small area at the start of a data area of one block, before three kinds of padding.
pub fn small_at_start(ctx: &mut Context) -> Outcome {
    let mut twin = Twin::new(&[]);
    all_small(ctx, |ctx, small| {
        for padding in [0x00, 0xFF, b'a'] {
            ctx.recipe = format!("small area at the start, padding {padding:02x}");
            let area = build::padded(small, 16, padding);
            let image = build::image(&[Part::free(1), Part::common(area)]);
            small_calls(ctx, &mut twin, &image)?;
        }
        Ok(())
    })
}

/// The prefixes before a small area at the end: whole pairs, a cut value, cut names, and an escape.
fn prefixes(left: usize) -> Vec<Vec<u8>> {
    let filled = |start: &[u8], byte: u8, end: &[u8]| {
        let mut prefix = build::padded(start, left - end.len(), byte);
        prefix.extend_from_slice(end);
        prefix
    };
    vec![
        filled(b"a=", b'x', b"\0"),
        filled(b"c=1\0d=", b'x', b"\0"),
        filled(b"c=", b'x', b""),
        filled(b"", b'n', b""),
        filled(b"c=", b'=', b"\xFF"),
    ]
}

/// Every small area as the last bytes of a data area, after each prefix.
pub fn small_at_end(ctx: &mut Context) -> Outcome {
    let mut twin = Twin::new(&[]);
    all_small(ctx, |ctx, small| {
        for blocks in [1, 2] {
            for (number, mut area) in prefixes(16 * blocks - small.len()).into_iter().enumerate() {
                if blocks == 2 && number != 3 {
                    continue;
                }
                ctx.recipe = format!("small area after prefix {number}");
                area.extend_from_slice(small);
                let image = build::image(&[Part::common(area), Part::free(1)]);
                small_calls(ctx, &mut twin, &image)?;
            }
        }
        Ok(())
    })
}

/// Stored names of up to 34 bytes with each byte at each position, and the area's end at each position.
pub fn stored_names(ctx: &mut Context) -> Outcome {
    let mut twin = Twin::new(&[]);
    let step = if ctx.quick { 7 } else { 1 };
    for length in 1..=34 {
        ctx.recipe = format!("a stored name of {length} bytes with another byte in it");
        for at in (0..length).step_by(step) {
            for byte in 0..=255 {
                let mut name = vec![b'n'; length];
                name[at] = byte;
                let area = build::padded(&build::pair(&name, b"v"), 48, 0);
                twin.load(&build::image(&[Part::common(area)]));
                twin.call(ctx, &Request::Count)?;
            }
        }
    }
    for used in 0..=48 {
        for length in 0..=48 - used {
            let cut = [vec![b'x'; used], vec![0], vec![b'n'; length]].concat();
            let area = [b"a=".to_vec(), cut].concat();
            let area = area[area.len() % 16..].to_vec();
            ctx.recipe = format!("an area cut in a name of {length} bytes");
            twin.load(&build::image(&[Part::common(area)]));
            twin.call(ctx, &Request::Count)?;
        }
    }
    Ok(())
}

/// A piece of an area that is often right and often not.
fn piece(rng: &mut Rng) -> Vec<u8> {
    match rng.below(12) {
        0 => vec![*rng.pick(&[0x00, 0xFF, b'=', 0x80, b'A', b'n'])],
        1 => build::any_name(rng),
        2 => vec![0xFF, rng.byte()],
        3 => vec![0xFF, *rng.pick(&[0x00, 0x80])],
        _ => {
            let name = build::good_name(rng);
            let value = build::value(rng, 6);
            build::pair(&name, &build::split_encode(rng, &value))
        }
    }
}

/// Areas of random pieces, at random positions among other partitions.
pub fn random_areas(ctx: &mut Context) -> Outcome {
    for round in 0..ctx.amount(40_000) {
        ctx.recipe = format!("area {round} of random pieces");
        let blocks = ctx.rng.below(8);
        let mut area = Vec::new();
        while area.len() < 16 * blocks {
            area.extend(piece(&mut ctx.rng));
        }
        area.truncate(16 * blocks);
        if blocks > 0 && ctx.rng.once_in(3) {
            let at = ctx.rng.below(area.len());
            area[at..].fill(0);
        }
        let image = build::around(&mut ctx.rng, area);
        let name = build::any_name(&mut ctx.rng);
        let value = build::value(&mut ctx.rng, 8);
        let mut twin = Twin::new(&image);
        twin.call(ctx, &Request::Count)?;
        twin.call(ctx, &Request::Read(name.clone(), vec![0xBB; 4]))?;
        twin.call(ctx, &Request::Set(name.clone(), value))?;
        twin.call(ctx, &Request::Remove(name))?;
        twin.call(ctx, &Request::Normalize)?;
    }
    Ok(())
}

/// Images with one fault of each kind, which calls with faults of their own then meet.
pub fn faulty_images() -> Vec<(&'static str, Vec<u8>)> {
    let common = |area: &[u8]| Part::common(area.to_vec());
    let with_area = |area: &[u8]| build::image(&[common(area), Part::free(1)]);
    let with_second = |area: &[u8]| build::image(&[common(area), Part::free(1), common(&[0; 16])]);
    let mut zero_length = build::base();
    zero_length[34..36].fill(0);
    let mut past_end = build::base();
    past_end[35] = 2;
    let mut sum = build::base();
    sum[33] ^= 1;
    vec![
        ("no fault", build::base()),
        ("length", build::base()[..47].to_vec()),
        ("zero length", zero_length),
        ("past the end", past_end),
        ("checksum", sum),
        ("second common", with_second(b"a=1\0b=2\0\0xxxxxxx")),
        ("second common, cut pair", with_second(b"a=xxxxxxxxxxxxxx")),
        ("no partition", build::image(&[Part::free(2)])),
        ("empty area", build::image(&[Part::common(vec![])])),
        ("cut pair", with_area(b"a=xxxxxxxxxxxxxx")),
        ("no end", with_area(b"a=xxxxxxxxxxxxx\0")),
        ("stored name", with_area(b"a=1\0B=2\0xxxxxxxx")),
        ("no name", with_area(b"=1\0\0xxxxxxxxxxxx")),
        ("escape", with_area(b"a=1\0b=\xFF\x80\0\0xxxxxx")),
        (
            "cut escape",
            with_area(b"a=1\0b=\x01\x01\x01\x01\x01\x01\x01\x01\x01\xFF"),
        ),
        ("repeated", with_area(b"a=1\0b=2\0a=3\0\0xxx")),
        ("repeated at the end", with_area(b"a=1\0b=22222\0a=3\0")),
        ("repeated and cut", with_area(b"a=1\0b=22222\0a=33")),
        ("repeated, bad escape", with_area(b"a=1\0b=22\0a=\xFF\0\0x")),
    ]
}

/// Each call with a bad name, an unknown name, a long value or a short buffer, on each faulty image.
pub fn fault_order(ctx: &mut Context) -> Outcome {
    for (fault, image) in faulty_images() {
        ctx.recipe = format!("the image with fault: {fault}");
        for name in [
            &b""[..],
            b"A",
            b"a",
            b"b",
            b"unknown",
            &[b'n'; 31],
            &[b'n'; 32],
            b"a=",
            b"a\0",
        ] {
            for value in [&b""[..], b"1", &[b'v'; 14], &[0; 127], &[0xFF; 3_000]] {
                let mut twin = Twin::new(&image);
                every_call(ctx, &mut twin, name, value)?;
                let mut twin = Twin::new(&image);
                twin.call(ctx, &Request::Remove(name.to_vec()))?;
                twin.call(ctx, &Request::Normalize)?;
            }
        }
    }
    Ok(())
}

/// Accepted images with some bytes changed anywhere.
pub fn damage(ctx: &mut Context) -> Outcome {
    for round in 0..ctx.amount(15_000) {
        ctx.recipe = format!("random image {round} with changed bytes");
        let mut image = build::random_image(&mut ctx.rng, 6, 20, 2);
        for _ in 0..ctx.rng.between(1, 3) {
            let at = ctx.rng.below(image.len());
            image[at] = match ctx.rng.below(3) {
                0 => ctx.rng.byte(),
                1 => image[at] ^ 1 << ctx.rng.below(8),
                _ => *ctx.rng.pick(&[0x00, 0xFF, 0x80, b'=', b'A', b'a']),
            };
        }
        if ctx.rng.once_in(20) {
            image.truncate(ctx.rng.below(image.len() + 1));
        }
        let name = build::any_name(&mut ctx.rng);
        let other = build::good_name(&mut ctx.rng);
        let value = build::value(&mut ctx.rng, 20);
        let mut twin = Twin::new(&image);
        questions(ctx, &mut twin, &name)?;
        twin.call(ctx, &Request::Remove(other))?;
        every_call(ctx, &mut twin, &name, &value)?;
    }
    Ok(())
}
