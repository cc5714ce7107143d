//! Variable names: the caller's, and the same bytes as stored ones.

use super::areas::faulty_images;
use crate::build::{self, Part};
use crate::context::{Context, Outcome};
use crate::request::Request;
use crate::twin::Twin;
use reference::model::{wrong_index, Call, Model};

/// A name of a length with one byte in place of its `n`.
fn with_byte(length: usize, at: usize, byte: u8) -> Vec<u8> {
    let mut name = vec![b'n'; length];
    name[at] = byte;
    name
}

/// Names with the indices that they are refused at, as the rule gives them by hand.
fn known_names() -> Vec<(Vec<u8>, usize)> {
    let short: [(&[u8], usize); 12] = [
        (b"", 0),
        (b"A", 0),
        (b"=", 0),
        (b"=a", 0),
        (b"a=", 1),
        (b"a=b", 1),
        (b"a=b=c", 1),
        (b"ab=C", 2),
        (b"abC=", 2),
        (b"a\0", 1),
        (b"boot device", 4),
        (b"bootDevice/Path", 4),
    ];
    let long = [
        (vec![b'n'; 32], 31),
        (vec![b'n'; 33], 31),
        (vec![b'n'; 1_000_000], 31),
        (with_byte(31, 30, b'='), 30),
        (with_byte(32, 31, b'='), 31),
        (with_byte(33, 32, b'='), 31),
        (with_byte(1_000_000, 0, b'='), 0),
        (with_byte(1_000_000, 30, b'='), 30),
        (with_byte(1_000_000, 500_000, b'='), 31),
        (with_byte(1_000_000, 999_999, b'='), 31),
    ];
    let short = short.map(|(name, index)| (name.to_vec(), index));
    short.into_iter().chain(long).collect()
}

/// Names of every length up to 40 and some long ones.
fn lengths() -> impl Iterator<Item = Vec<u8>> {
    let long = [255, 256, 257, 1_000, 65_535, 65_536, 70_000];
    (0..=40).chain(long).map(|length| vec![b'n'; length])
}

/// Each byte at the first, the middle and the last index of a name of a length.
fn each_byte(ctx: &Context, length: usize) -> impl Iterator<Item = Vec<u8>> {
    let step = if ctx.quick { 11 } else { 1 };
    let mut indices = vec![0, length / 2, length - 1];
    indices.dedup();
    let bytes = move |at| (0..=255).step_by(step).map(move |byte| (at, byte));
    let places = indices.into_iter().flat_map(bytes);
    places.map(move |(at, byte)| with_byte(length, at, byte))
}

/// Names up to 34 bytes with a wrong byte at each index and others after it.
fn several_bytes(ctx: &mut Context) -> Vec<Vec<u8>> {
    const WRONG: [u8; 9] = [0x00, b' ', b'/', b'=', b'A', b'Z', b']', 0x7F, 0xFF];
    let mut list = Vec::new();
    for length in 1..=34 {
        for first in 0..length {
            let mut name = vec![b'n'; length];
            for _ in 0..3 {
                name[ctx.rng.between(first, length - 1)] = *ctx.rng.pick(&WRONG);
            }
            name[first] = *ctx.rng.pick(&WRONG);
            list.push(name);
        }
    }
    list
}

/// All names of this file.
fn all_names(ctx: &mut Context) -> Vec<Vec<u8>> {
    let known = known_names().into_iter().map(|(name, _)| name);
    let mut list: Vec<Vec<u8>> = known.chain(lengths()).collect();
    for length in [1, 2, 3, 5, 16, 31, 32, 33] {
        list.extend(each_byte(ctx, length));
    }
    list.extend(several_bytes(ctx));
    list
}

/// The calls by each name on a small image, compared also with the reference model.
pub fn names(ctx: &mut Context) -> Outcome {
    for name in all_names(ctx) {
        name_calls(ctx, &name)?;
    }
    Ok(())
}

/// Reads, sets and removes a name on an image that has some other names.
fn name_calls(ctx: &mut Context, name: &[u8]) -> Outcome {
    ctx.recipe = format!("a small image and a name of {} bytes", name.len());
    let mut area = build::pair(b"a", b"1");
    area.extend(build::pair(&[b'n'; 31], b"\xFF\x01\xFF\x01"));
    area.extend(build::pair(b"aa", b""));
    let image = build::image(&[
        Part::free(1),
        Part::common(build::padded(&area, 112, 0)),
        Part::free(2),
    ]);
    let mut model = Model::of_image(&image).expect("a well-formed area");
    let mut twin = Twin::new(&image);
    let name = || name.to_vec();
    let read = |length: usize| Call::Read {
        name: name(),
        buffer: vec![0xBC; length],
    };
    let set = |value: &[u8]| Call::Set {
        name: name(),
        value: value.to_vec(),
    };
    let remove = || Call::Remove { name: name() };
    let first = [
        read(4),
        remove(),
        set(b"\0=\xFF"),
        read(2),
        read(4),
        Call::Count,
    ];
    let second = [set(b""), read(0), remove(), read(4), Call::Normalize];
    for call in first.iter().chain(&second) {
        twin.call_model(ctx, &mut model, call)?;
    }
    twin.same_entries(ctx, &model)
}

/// The calls by each name on an image without a fault and on one of each fault, with the index that is wanted.
pub fn name_indices(ctx: &mut Context) -> Outcome {
    for (name, index) in known_names() {
        ctx.same("the index of the rule", wrong_index(&name), Some(index))?;
    }
    let list = all_names(ctx);
    for (fault, image) in faulty_images() {
        let mut twin = Twin::new(&image);
        for name in &list {
            ctx.recipe = format!("a name of {} bytes, and fault: {fault}", name.len());
            calls_by_name(ctx, &mut twin, &image, name)?;
        }
    }
    let image = build::base();
    let mut twin = Twin::new(&image);
    for name in each_byte(ctx, 1_000_000) {
        ctx.recipe = "a small image and a name of 1,000,000 bytes".to_string();
        calls_by_name(ctx, &mut twin, &image, &name)?;
    }
    Ok(())
}

/// Reads, sets and removes by a name; a wrong one is refused with 11 at its index, and every byte is kept.
fn calls_by_name(ctx: &mut Context, twin: &mut Twin, image: &[u8], name: &[u8]) -> Outcome {
    let index = wrong_index(name);
    let calls = [
        Request::Read(name.to_vec(), vec![0xBD; 3]),
        Request::Set(name.to_vec(), b"1".to_vec()),
        Request::Remove(name.to_vec()),
    ];
    for call in &calls {
        let reply = twin.call(ctx, call)?;
        let Some(index) = index else {
            ctx.same("11 for a good name", reply.code == 11, false)?;
            twin.load(image);
            continue;
        };
        let found = (reply.code, reply.offset, reply.amounts);
        ctx.same("11 at its index", found, (11, index, [0; 3]))?;
        ctx.same("the buffer as it was", &reply.buffer[..], call.lent())?;
        ctx.same("the image as it was", twin.image(), image)?;
    }
    Ok(())
}

/// Each name as stored bytes, before a value and at the area's end, with the answer that is wanted of a count.
pub fn stored_indices(ctx: &mut Context) -> Outcome {
    let mut twin = Twin::new(&[]);
    for name in all_names(ctx) {
        ctx.recipe = format!("a stored name of {} bytes before a value", name.len());
        let start = [b"c=1\0", &name[..], b"=v\0\0"].concat();
        let area = build::padded(&start, start.len().div_ceil(16) * 16, 0);
        stored_name(ctx, &mut twin, area, 4)?;
        ctx.recipe = format!("a stored name of {} bytes at the area's end", name.len());
        let length = (name.len() + 4).div_ceil(16) * 16;
        let at = length - name.len();
        let value = build::padded(b"c=", at - 1, b'x');
        stored_name(ctx, &mut twin, [&value, &b"\0"[..], &name].concat(), at)?;
    }
    Ok(())
}

/// Counts the variables of an area whose pair at an offset may have a wrong name.
fn stored_name(ctx: &mut Context, twin: &mut Twin, area: Vec<u8>, at: usize) -> Outcome {
    let wanted = stored_answer(&area, at);
    twin.load(&build::image(&[Part::free(1), Part::common(area)]));
    let reply = twin.call(ctx, &Request::Count)?;
    match wanted {
        Some(wanted) => ctx.same("the answer by the name", (reply.code, reply.offset), wanted),
        None => Ok(()),
    }
}

/// The code and offset of a count by the name that is stored at an offset of the area, or nothing where its value decides.
fn stored_answer(area: &[u8], at: usize) -> Option<(u32, usize)> {
    const START: usize = 32;
    let left = &area[at..];
    let equals = left.iter().position(|&byte| byte == b'=');
    let name = &left[..equals.unwrap_or(left.len())];
    match (wrong_index(name), equals) {
        _ if left.is_empty() => Some((7, START + at)),
        _ if left[0] == 0 => Some((0, 0)),
        (Some(index), _) => Some((8, START + at + index)),
        (None, None) => Some((7, START + area.len())),
        (None, Some(equals)) if !left[equals..].starts_with(b"=v\0\0") => None,
        _ if name == b"c" => Some((10, START + at)),
        _ => Some((0, 0)),
    }
}
