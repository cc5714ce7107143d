//! Finding of partitions by their names, and cards with leftover bytes after the 0x00 of a name.

use super::every_call;
use crate::build::{self, Part};
use crate::context::{Context, Outcome};
use crate::request::{Reply, Request};
use crate::twin::Twin;

/// The bytes of a partition's name.
const NAME: usize = 12;

/// A name of twelve bytes, whose beginnings are the names that are stored.
const WHOLE: &[u8; NAME] = b"common-log-1";

/// Finding by names and signatures that are nearly the same.
pub fn finding(ctx: &mut Context) -> Outcome {
    const NAMES: [&[u8]; 13] = [
        b"",
        b"\0x",
        b"c",
        b"common",
        b"commom",
        b"common\0\0\0\0\0x",
        b"common\0x",
        b"comm\0on",
        b"wwwwwwwwwwww",
        b"wwwwwwwwwwwx",
        b"wwwwwwwwwww",
        b"wwwwwwwwww\0x",
        b"Common",
    ];
    for round in 0..ctx.amount(2_000) {
        ctx.recipe = format!("random image {round} of partitions with like names");
        let mut parts = Vec::new();
        for _ in 0..ctx.rng.between(1, 7) {
            let data = vec![0; 16 * ctx.rng.below(3)];
            let name = *ctx.rng.pick(&NAMES);
            parts.push(Part::new(*ctx.rng.pick(&[0x70, 0x7F, 0x71]), name, data));
        }
        let image = build::image(&parts);
        let mut twin = Twin::new(&image);
        for _ in 0..12 {
            let mut name = ctx.rng.pick(&NAMES).to_vec();
            if ctx.rng.once_in(2) {
                name.resize(ctx.rng.between(0, 15), 0);
            }
            let signature = *ctx.rng.pick(&[0x70, 0x7F, 0x71, 0x00]);
            twin.call(ctx, &Request::Find(signature, name.clone()))?;
            same_data(ctx, &image, signature, &name)?;
        }
        for index in [0, 1, 2, 5, 6, 7, usize::MAX, usize::MAX / 16] {
            twin.call(ctx, &Request::Partition(index))?;
        }
        let reply = twin.call(ctx, &Request::Count)?;
        let wanted = count_of_zeros(&parts);
        ctx.same("a count", (reply.code, reply.offset), wanted)?;
    }
    Ok(())
}

/// The code and offset of a count where every data area has zeros only.
fn count_of_zeros(parts: &[Part]) -> (u32, usize) {
    let first = parts.iter().find(|part| part.is_common());
    match (first, &build::common_offsets(parts)[..]) {
        (_, [_, second, ..]) => (20, *second),
        (Some(only), [at]) if only.data.is_empty() => (7, at + 16),
        (Some(_), _) => (0, 0),
        (None, _) => (6, 0),
    }
}

/// Compares the data range of the wrapper's partition with the reference's.
fn same_data(ctx: &mut Context, image: &[u8], signature: u8, name: &[u8]) -> Outcome {
    let found = nvram::find(image, signature, name).ok();
    let wanted = reference::find(image, signature, name).ok();
    let ranges = (found.map(|p| p.data()), wanted.map(|p| p.data()));
    ctx.same("the data range", ranges.0, ranges.1)?;
    ctx.same(
        "the wrapper's signature",
        found.map_or(signature, |p| p.signature),
        signature,
    )
}

/// Stored names of every length with leftover bytes at each index after their 0x00, sought by names of 0 to 14 bytes.
pub fn partition_names(ctx: &mut Context) -> Outcome {
    let mut twin = Twin::new(&[]);
    let given_names = given_names();
    for length in 0..=NAME {
        for stored in stored_names(&WHOLE[..length]) {
            ctx.recipe = format!("a stored name {stored:02x?}");
            let parts = [Part::free(2), named(0x71, stored), named(0x70, stored)];
            twin.load(&build::image(&parts));
            for (given, ends) in &given_names {
                let there = ends.is_some_and(|end| end == &WHOLE[..length]);
                let wanted = if there { (0, 64, 2) } else { (6, 0, 0) };
                let reply = twin.call(ctx, &Request::Find(0x70, given.clone()))?;
                ctx.same("the partition that is found", found(&reply), wanted)?;
            }
        }
    }
    first_of_two(ctx)
}

/// A partition of two blocks.
fn named(signature: u8, name: [u8; NAME]) -> Part {
    Part::new(signature, &name, vec![0; 16])
}

/// The code, and where a partition stands and its blocks.
fn found(reply: &Reply) -> (u32, usize, usize) {
    (reply.code, reply.amounts[0], reply.amounts[1])
}

/// The twelve stored bytes of a name: with zeros after it, with one leftover byte at each index after its 0x00, and with
/// leftover bytes from each such index on.
fn stored_names(name: &[u8]) -> Vec<[u8; NAME]> {
    let mut padded = [0; NAME];
    padded[..name.len()].copy_from_slice(name);
    let mut names = vec![padded];
    for index in name.len() + 1..NAME {
        for byte in [0x01, b'-', b'n', 0x7F, 0x80, 0xFF] {
            let mut leftover = padded;
            leftover[index] = byte;
            names.push(leftover);
            leftover[index..].fill(byte);
            names.push(leftover);
        }
    }
    names
}

/// Names that a caller may give, each with the bytes up to its end, or nothing where it is above twelve bytes: every
/// beginning of the whole name alone, with a 0x00, and with a 0x00 and bytes after it up to 14 bytes.
fn given_names() -> Vec<(Vec<u8>, Option<&'static [u8]>)> {
    let mut names: Vec<(Vec<u8>, Option<&[u8]>)> = Vec::new();
    for length in 0..=NAME {
        let name = &WHOLE[..length];
        names.push((name.to_vec(), Some(name)));
        for total in length + 1..=NAME + 2 {
            let ends = (total <= NAME).then_some(name);
            for byte in [0x00, b'z', 0xFF] {
                let mut given = build::padded(name, total, byte);
                given[length] = 0;
                names.push((given, ends));
            }
        }
    }
    names.push((build::padded(WHOLE, NAME + 1, b'2'), None));
    names
}

/// Partitions whose names differ only after their 0x00: the first one is found, and the second one is refused by a read.
fn first_of_two(ctx: &mut Context) -> Outcome {
    let names: [[u8; NAME]; 4] = [
        *b"common\0\0\0\0\0\0",
        *b"common\0x\0\0\0\0",
        *b"common\0\0\0\0\0y",
        *b"common\0commo",
    ];
    for left in names {
        for right in names {
            ctx.recipe = format!("two partitions, {left:02x?} and {right:02x?}");
            let [first, second] = [b"a=1\0b=2\0", b"a=3\0c=4\0"];
            let parts = [
                Part::free(1),
                Part::new(0x70, &left, build::padded(first, 16, 0)),
                Part::new(0x70, &right, build::padded(second, 16, 0)),
            ];
            let mut twin = Twin::new(&build::image(&parts));
            for given in [b"common".to_vec(), left.to_vec(), right.to_vec()] {
                let reply = twin.call(ctx, &Request::Find(0x70, given))?;
                ctx.same("the first of two", found(&reply), (0, 16, 2))?;
            }
            let reply = twin.call(ctx, &Request::Read(b"a".to_vec(), vec![9; 1]))?;
            let refused = (reply.code, reply.offset, reply.buffer);
            ctx.same("a read with a second one", refused, (20, 48, vec![9]))?;
        }
    }
    Ok(())
}

/// Every call on cards whose `common` has each byte at each index after the 0x00 of its name, and on cards with leftover
/// bytes in all headers: it answers as on the card without them, and leaves their headers.
pub fn leftovers(ctx: &mut Context) -> Outcome {
    let area = build::padded(b"a=1\0b=\xFF\x01\xFF\x01\0\0", 48, 0x55);
    let clean = build::image(&[Part::free(1), Part::common(area), Part::free(1)]);
    for index in 7..NAME {
        for byte in 0..=255 {
            ctx.recipe = format!("`common` with the byte {byte:02x} at index {index} of its name");
            let mut name = *b"common\0\0\0\0\0\0";
            name[index] = byte;
            let mut leftover = clean.clone();
            build::rename(&mut leftover, 16, &name);
            as_without(ctx, &clean, &leftover)?;
        }
    }
    for round in 0..ctx.amount(500) {
        ctx.recipe = format!("random image {round} with leftover bytes in its headers");
        let clean = build::padded_image(&mut ctx.rng, 4, 20, 3);
        let leftover = build::with_leftovers(&mut ctx.rng, &clean);
        as_without(ctx, &clean, &leftover)?;
    }
    Ok(())
}

/// Makes the same calls on a card and on the same card with leftover bytes, and compares answers, areas and headers.
pub fn as_without(ctx: &mut Context, clean: &[u8], leftover: &[u8]) -> Outcome {
    let requests = [
        Request::Check,
        Request::Partition(1),
        Request::Find(0x70, b"common".to_vec()),
        Request::Count,
        Request::Read(b"a".to_vec(), vec![0xBA; 40]),
        Request::Set(b"a".to_vec(), b"22".to_vec()),
        Request::Set(b"new".to_vec(), vec![0; 3]),
        Request::Remove(b"b".to_vec()),
        Request::Normalize,
        Request::Listing(vec![0xBB; 900]),
    ];
    let (mut left, mut right) = (Twin::new(clean), Twin::new(leftover));
    for request in requests {
        let wanted = left.call(ctx, &request)?;
        let reply = right.call(ctx, &request)?;
        ctx.same(
            "the answer with leftover bytes",
            reply.to_string(),
            wanted.to_string(),
        )?;
        let mut image = right.image().to_vec();
        build::copy_headers(clean, &mut image);
        ctx.same("the bytes outside the headers", &image[..], left.image())?;
        let mut image = right.image().to_vec();
        build::copy_headers(leftover, &mut image);
        ctx.same("the headers with leftover bytes", &image[..], right.image())?;
    }
    every_call(ctx, &mut right, b"a", b"1")
}
