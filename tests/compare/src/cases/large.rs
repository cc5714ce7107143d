//! The longest partitions and images.

use super::{every_call, read_three_ways};
use crate::build::{self, Part};
use crate::context::{Context, Outcome};
use crate::request::Request;
use crate::twin::Twin;
use reference::header::header_bytes;
use reference::model::Model;

/// The data bytes of the longest partition.
const LONGEST_AREA: usize = 65_534 * 16;

/// Partitions of 1, 4,096 and 65,535 blocks, and 65,536 partitions of one block.
pub fn partitions(ctx: &mut Context) -> Outcome {
    for lengths in [
        &[1][..],
        &[4_096],
        &[4_096, 4_096],
        &[65_535],
        &[65_535, 1],
        &[1, 65_535],
        &[32_768, 32_768],
    ] {
        for common in 0..lengths.len() {
            ctx.recipe =
                format!("partitions of {lengths:?} blocks, number {common} with the variables");
            let parts: Vec<Part> = lengths
                .iter()
                .enumerate()
                .map(|(index, &blocks)| match index == common {
                    true => Part::common(vec![0; 16 * (blocks - 1)]),
                    false => Part::free(blocks),
                })
                .collect();
            large_calls(ctx, &build::image(&parts))?;
        }
    }
    impossible(ctx)?;
    one_block_partitions(ctx)
}

fn large_calls(ctx: &mut Context, image: &[u8]) -> Outcome {
    let mut twin = Twin::new(image);
    every_call(ctx, &mut twin, b"a", b"1")?;
    for index in [0, 1, 2, 65_535, 65_536] {
        twin.call(ctx, &Request::Partition(index))?;
    }
    twin.call(ctx, &Request::Find(0x7F, vec![0x77; 12]))?;
    for length in [1, 65_500, 65_513, 65_514, 65_515, 65_516, 65_517] {
        twin.call(ctx, &Request::Set(b"v".to_vec(), vec![b'v'; length]))?;
        read_three_ways(ctx, &mut twin, b"v", length)?;
    }
    twin.call(ctx, &Request::Set(b"w".to_vec(), b"1".to_vec()))?;
    twin.call(ctx, &Request::Remove(b"v".to_vec()))?;
    twin.call(ctx, &Request::Count)?;
    Ok(())
}

/// Images of 65,536 blocks whose first header claims all it can, with nothing right behind it.
fn impossible(ctx: &mut Context) -> Outcome {
    for blocks in [0, 1, 65_535] {
        ctx.recipe = format!("65,536 blocks of 0x00, the first header with {blocks} blocks");
        let mut image = vec![0; 65_536 * 16];
        image[..16].copy_from_slice(&header_bytes(0x70, blocks, b"common\0\0\0\0\0\0"));
        every_call(ctx, &mut Twin::new(&image), b"a", b"1")?;
        let last = image.len() - 16;
        image[last..].copy_from_slice(&header_bytes(0x7F, 2, &[0x77; 12]));
        every_call(ctx, &mut Twin::new(&image), b"a", b"1")?;
    }
    Ok(())
}

fn one_block_partitions(ctx: &mut Context) -> Outcome {
    for common in [0, 40_000, 65_535] {
        ctx.recipe = format!("65,536 partitions of one block, number {common} with the variables");
        let mut image = header_bytes(0x7F, 1, &[0x77; 12]).repeat(65_536);
        image[16 * common..16 * common + 16].copy_from_slice(&header_bytes(
            0x70,
            1,
            b"common\0\0\0\0\0\0",
        ));
        let mut twin = Twin::new(&image);
        every_call(ctx, &mut twin, b"a", b"1")?;
        for index in [0, 1, 40_000, 65_534, 65_535, 65_536, usize::MAX] {
            twin.call(ctx, &Request::Partition(index))?;
        }
        image[16 * 65_535 + 1] ^= 1;
        every_call(ctx, &mut Twin::new(&image), b"a", b"1")?;
    }
    Ok(())
}

/// A partition of 65,535 blocks filled to the last byte.
pub fn full(ctx: &mut Context) -> Outcome {
    let image = build::image(&[Part::common(vec![0; LONGEST_AREA]), Part::free(1)]);
    full_of_one(ctx, &image)?;
    full_of_zeros(ctx)?;
    full_of_many(ctx)?;
    full_of_smallest(ctx)
}

/// One variable whose value fills the area, and one byte more.
fn full_of_one(ctx: &mut Context, image: &[u8]) -> Outcome {
    ctx.recipe = "a partition of 65,535 blocks filled by one variable".to_string();
    let mut twin = Twin::new(image);
    let most = LONGEST_AREA - 4;
    let over = Request::Set(b"v".to_vec(), vec![b'v'; most + 1]);
    let reply = twin.call(ctx, &over)?;
    ctx.same("one byte too many", reply.code, 13)?;
    let reply = twin.call(ctx, &Request::Set(b"v".to_vec(), vec![b'v'; most]))?;
    ctx.same("the last byte", reply.code, 0)?;
    read_three_ways(ctx, &mut twin, b"v", most)?;
    let reply = twin.call(ctx, &over)?;
    ctx.same("one byte too many in a full area", reply.code, 13)?;
    for (value, code) in [(vec![0; 1], 13), (vec![], 13)] {
        let reply = twin.call(ctx, &Request::Set(b"w".to_vec(), value))?;
        ctx.same("a second variable in a full area", reply.code, code)?;
    }
    twin.call(ctx, &Request::Normalize)?;
    twin.call(ctx, &Request::Set(b"v".to_vec(), vec![b'v'; most - 3]))?;
    let reply = twin.call(ctx, &Request::Set(b"w".to_vec(), vec![]))?;
    ctx.same("a second variable of three bytes", reply.code, 0)?;
    twin.call(ctx, &Request::Remove(b"v".to_vec()))?;
    twin.call(ctx, &Request::Count)?;
    Ok(())
}

/// One variable of zeros whose value is many times as long as its area of 4,096 blocks.
fn full_of_zeros(ctx: &mut Context) -> Outcome {
    ctx.recipe = "a partition of 4,096 blocks filled by one variable of zeros".to_string();
    let image = build::image(&[Part::common(vec![0; 65_520])]);
    let most = (65_520 - 4) / 2 * 127;
    for byte in [0x00, 0xFF] {
        let mut twin = Twin::new(&image);
        let reply = twin.call(ctx, &Request::Set(b"v".to_vec(), vec![byte; most + 1]))?;
        ctx.same("one zero too many", reply.code, 13)?;
        let reply = twin.call(ctx, &Request::Set(b"v".to_vec(), vec![byte; most]))?;
        ctx.same("the last zero", reply.code, 0)?;
        read_three_ways(ctx, &mut twin, b"v", most)?;
        twin.call(ctx, &Request::Normalize)?;
    }
    Ok(())
}

/// Thousands of variables that fill the area, and one byte more.
fn full_of_many(ctx: &mut Context) -> Outcome {
    ctx.recipe = "a partition of 65,535 blocks filled by many variables".to_string();
    let mut area = Vec::new();
    let mut number = 0;
    while area.len() + 800 < LONGEST_AREA {
        let length = ctx.rng.between(0, 400);
        let value = build::value(&mut ctx.rng, length);
        let stored = build::split_encode(&mut ctx.rng, &value);
        area.extend(build::pair(format!("n{number}").as_bytes(), &stored));
        number += 1;
    }
    let left = LONGEST_AREA - area.len() - 1;
    let image = build::image(&[
        Part::free(1),
        Part::common(build::padded(&area, LONGEST_AREA, 0)),
    ]);
    let mut twin = Twin::new(&image);
    let set = |length: usize| Request::Set(b"last".to_vec(), vec![b'v'; length]);
    let reply = twin.call(ctx, &set(left - 5))?;
    ctx.same("one byte too many", reply.code, 13)?;
    let reply = twin.call(ctx, &set(left - 6))?;
    ctx.same("the last byte", reply.code, 0)?;
    read_three_ways(ctx, &mut twin, b"last", left - 6)?;
    let model = Model::of_image(twin.image()).expect("a well-formed area");
    for at in [0, 1, number / 2, number - 1] {
        let entry = &model.entries[at];
        read_three_ways(ctx, &mut twin, &entry.name, entry.value.len())?;
    }
    twin.call(ctx, &Request::Set(b"n0".to_vec(), vec![b'v'; 900]))?;
    twin.call(ctx, &Request::Remove(b"n1".to_vec()))?;
    twin.call(ctx, &Request::Normalize)?;
    twin.call(ctx, &Request::Count)?;
    Ok(())
}

/// A name of four bytes for a number.
fn four_bytes(number: usize) -> Vec<u8> {
    let letter = |power: u32| b'a' + (number / 26usize.pow(power) % 26) as u8;
    (0..4).map(letter).collect()
}

/// About 175,000 pairs of six bytes that fill the area, then the first name again at the last pair.
fn full_of_smallest(ctx: &mut Context) -> Outcome {
    ctx.recipe = "a partition of 65,535 blocks filled by pairs of six bytes".to_string();
    let number = (LONGEST_AREA - 1) / 6;
    let area: Vec<u8> = (0..number)
        .flat_map(|number| build::pair(&four_bytes(number), b""))
        .collect();
    let mut image = build::image(&[Part::common(build::padded(&area, LONGEST_AREA, 0))]);
    let mut twin = Twin::new(&image);
    let reply = twin.call(ctx, &Request::Count)?;
    ctx.same("the number of pairs", reply.amounts[0], number)?;
    let left = LONGEST_AREA - 1 - area.len();
    let last = four_bytes(number - 1);
    for (length, code) in [(left + 1, 13), (left, 0)] {
        let reply = twin.call(ctx, &Request::Set(last.clone(), vec![b'v'; length]))?;
        ctx.same("the room of the last pair", reply.code, code)?;
    }
    twin.call(ctx, &Request::Remove(four_bytes(number / 2)))?;
    twin.call(ctx, &Request::Normalize)?;
    let offset = 16 + 6 * (number - 1);
    image[offset..offset + 4].copy_from_slice(&four_bytes(0));
    let reply = Twin::new(&image).call(ctx, &Request::Count)?;
    ctx.same("the repeat", (reply.code, reply.offset), (10, offset))
}
