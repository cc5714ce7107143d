//! Names that stand a second time, far apart in long areas.

use crate::build::{self, Part};
use crate::context::{Context, Outcome};
use crate::request::Request;
use crate::twin::Twin;

/// The pairs of a long area, as the numbers that their names are made from.
fn numbered_area(numbers: &[usize]) -> Vec<u8> {
    numbers
        .iter()
        .flat_map(|number| build::pair(format!("{number:x}").as_bytes(), b""))
        .collect()
}

/// An image with the area after one block of free space, and the offset of each pair in it.
fn numbered_image(numbers: &[usize], tail: &[u8]) -> Vec<u8> {
    let mut area = numbered_area(numbers);
    area.extend_from_slice(tail);
    let length = (area.len() + 1).div_ceil(16) * 16;
    build::image(&[Part::free(1), Part::common(build::padded(&area, length, 0))])
}

/// The offset of a pair in the image.
fn pair_offset(numbers: &[usize], at: usize) -> usize {
    32 + numbered_area(&numbers[..at]).len()
}

/// Compares a count, and the answer wanted from how the area was made.
fn count_is(ctx: &mut Context, image: &[u8], wanted: (u32, usize, usize)) -> Outcome {
    let reply = Twin::new(image).call(ctx, &Request::Count)?;
    ctx.same(
        "code, offset and count",
        (reply.code, reply.offset, reply.amounts[0]),
        wanted,
    )
}

/// Areas of up to 10,000 pairs without a repeat, with one, and with several.
pub fn repeats(ctx: &mut Context) -> Outcome {
    const NUMBERS: [usize; 16] = [
        2, 3, 64, 255, 256, 257, 1_023, 1_024, 1_025, 2_049, 4_095, 4_096, 4_097, 8_193, 9_001,
        10_000,
    ];
    for number in NUMBERS {
        let plain: Vec<usize> = (0..number).collect();
        ctx.recipe = format!("{number} pairs without a repeat");
        count_is(ctx, &numbered_image(&plain, b""), (0, 0, number))?;
        for (first, second) in chosen(ctx, number) {
            one_repeat(ctx, &plain, first, second)?;
        }
        for _ in 0..ctx.amount(10) {
            several_repeats(ctx, &plain)?;
        }
    }
    long_names(ctx)
}

/// Pairs of positions for a name and its repeat: at the ends, around multiples of 1,024, and random ones.
fn chosen(ctx: &mut Context, number: usize) -> Vec<(usize, usize)> {
    let last = number - 1;
    let mut positions = vec![(0, last), (last - 1, last), (0, 1)];
    for edge in [256, 1_024, 2_048, 4_096, 8_192, 9_000] {
        for first in [0, 1, edge - 1] {
            for second in [edge - 1, edge, edge + 1] {
                positions.push((first, second));
            }
        }
        positions.push((edge, edge + 1));
        positions.push((edge, last));
    }
    for _ in 0..ctx.amount(10) {
        let second = ctx.rng.between(1, last);
        positions.push((ctx.rng.below(second), second));
    }
    positions.retain(|&(first, second)| first < second && second <= last);
    positions
}

/// One name a second time, then also with faults behind it and in it.
fn one_repeat(ctx: &mut Context, plain: &[usize], first: usize, second: usize) -> Outcome {
    let mut numbers = plain.to_vec();
    numbers[second] = numbers[first];
    ctx.recipe = format!(
        "{} pairs, the name of pair {first} again at pair {second}",
        plain.len()
    );
    let offset = pair_offset(&numbers, second);
    count_is(ctx, &numbered_image(&numbers, b""), (10, offset, 0))?;
    ctx.recipe += ", then a name that breaks the rule";
    count_is(ctx, &numbered_image(&numbers, b"A=\0"), (10, offset, 0))?;
    let mut cut = numbers[..second].to_vec();
    let name = format!("{:x}", cut[first]);
    ctx.recipe = format!("{second} pairs, then the name of pair {first} with a faulty escape");
    let tail = build::pair(name.as_bytes(), b"\xFF\x80");
    count_is(
        ctx,
        &numbered_image(&cut, &tail),
        (9, offset + name.len() + 2, 0),
    )?;
    cut.push(cut[first]);
    let mut image = numbered_image(&cut, b"");
    ctx.recipe = format!("the edits refused with the name of pair {first} again at pair {second}");
    let mut twin = Twin::new(&image);
    twin.call(ctx, &Request::Set(name.into_bytes(), b"1".to_vec()))?;
    twin.call(ctx, &Request::Normalize)?;
    image[pair_offset(&cut, first)] = b'A';
    ctx.recipe += ", the first one broken";
    count_is(ctx, &image, (8, pair_offset(&cut, first), 0))
}

/// Some names a second or third time at random positions; the earliest later one must be answered.
fn several_repeats(ctx: &mut Context, plain: &[usize]) -> Outcome {
    let mut numbers = plain.to_vec();
    let mut earliest = usize::MAX;
    for _ in 0..ctx.rng.between(2, 5) {
        let second = ctx.rng.between(1, plain.len() - 1);
        numbers[second] = plain[ctx.rng.below(second)];
    }
    let mut seen = vec![false; plain.len()];
    for (at, &number) in numbers.iter().enumerate() {
        if std::mem::replace(&mut seen[number], true) {
            earliest = earliest.min(at);
        }
    }
    ctx.recipe = format!(
        "{} pairs with several repeats, the earliest at pair {earliest}",
        plain.len()
    );
    let wanted = match earliest {
        usize::MAX => (0, 0, plain.len()),
        at => (10, pair_offset(&numbers, at), 0),
    };
    count_is(ctx, &numbered_image(&numbers, b""), wanted)
}

/// Names of 31 bytes that are equal but for one byte, and ones where one name starts another.
fn long_names(ctx: &mut Context) -> Outcome {
    for at in 0..31 {
        for length in 1..=31 {
            let mut other = vec![b'n'; length];
            if at < length {
                other[at] = b'm';
            }
            ctx.recipe = format!("31 bytes n, and {length} bytes n but for byte {at}");
            let area = [build::pair(&[b'n'; 31], b"1"), build::pair(&other, b"2")].concat();
            let area = build::padded(&area, 80, 0);
            Twin::new(&build::image(&[Part::common(area)])).call(ctx, &Request::Count)?;
        }
    }
    Ok(())
}
