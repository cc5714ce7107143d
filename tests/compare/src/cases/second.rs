//! Images with a second partition of signature 0x70 and name `common`: the calls on variables refuse them, the others take
//! them.

use crate::build::{self, Part, NEAR_MISSES};
use crate::context::{Context, Outcome};
use crate::request::{Reply, Request};
use crate::rng::Rng;
use crate::twin::Twin;
use reference::header::header_bytes;

/// Names that are the same as `common`: padded with 0x00, and with leftover bytes.
const NAMES: [&[u8]; 4] = [
    b"common",
    b"common\0x",
    b"common\0\0\0\0\0y",
    b"common\0commo",
];

/// The answer of a refused call: its code and its offset.
pub type Refused = (u32, usize);

/// Data areas: empty, well formed, with a split run, with a header of `common` after the pairs, and with each fault of an
/// area.
fn areas() -> [Vec<u8>; 9] {
    let block = |start: &[u8]| build::padded(start, 16, 0);
    [
        vec![],
        block(b"a=1\0b=2\0"),
        block(b"a=3\0c=4\0"),
        build::padded(b"a=\xFF\x01\xFF\x01\0\0", 48, 0x55),
        [block(b"a=1\0"), one_block().to_vec()].concat(),
        block(b"a=xxxxxxxxxxxxxx"),
        block(b"a=1\0B=2\0"),
        block(b"a=1\0b=\xFF\x80\0"),
        block(b"a=1\0b=2\0a=3\0"),
    ]
}

/// Partitions for the variables: each name with each data area.
fn commons() -> Vec<Part> {
    let with_name = |name| {
        areas()
            .into_iter()
            .map(move |area| Part::new(0x70, name, area))
    };
    NAMES.into_iter().flat_map(with_name).collect()
}

/// Partitions that are not for the variables: near misses with variables in their areas, free space, and one whose area is
/// a header of `common`.
fn others() -> Vec<Part> {
    let variables = || build::padded(b"a=5\0b=6\0", 16, 0);
    let near = NEAR_MISSES.map(|(signature, name)| Part::new(signature, name, variables()));
    let header = Part::new(0x51, b"linux", one_block().to_vec());
    let rest = [Part::free(1), Part::free(3), header];
    near.into_iter().chain(rest).collect()
}

/// A `common` of one block.
fn one_block() -> [u8; 16] {
    header_bytes(0x70, 1, b"common\0\0\0\0\0\0")
}

/// The calls on variables by good names, of which some may stand, with several buffers and values.
pub fn variable_calls() -> Vec<Request> {
    let mut calls = vec![Request::Count];
    for name in [&b"a"[..], b"b", b"unknown", &[b'n'; 31]] {
        let name = || name.to_vec();
        calls.extend([0, 1, 2, 40].map(|room| Request::Read(name(), vec![0xBE; room])));
        calls.extend([0, 1, 200].map(|length| Request::Set(name(), vec![b'v'; length])));
        calls.push(Request::Remove(name()));
    }
    calls.push(Request::Normalize);
    calls
}

/// The code, the offset and the numbers of an answer.
fn answered(reply: &Reply) -> (u32, usize, [usize; 3]) {
    (reply.code, reply.offset, reply.amounts)
}

/// Makes calls that are all refused alike; each keeps every byte of the image and of the buffer.
pub fn refused(ctx: &mut Context, twin: &mut Twin, calls: &[Request], wanted: Refused) -> Outcome {
    let image = twin.image().to_vec();
    let (code, offset) = wanted;
    for call in calls {
        let reply = twin.call(ctx, call)?;
        ctx.same(&call.to_string(), answered(&reply), (code, offset, [0; 3]))?;
        ctx.same("the buffer as it was", &reply.buffer[..], call.lent())?;
        ctx.same("the image as it was", twin.image(), &image[..])?;
    }
    Ok(())
}

/// Makes every call on an image with a second `common`: those on variables answer 20 at its header.
fn second_refused(ctx: &mut Context, twin: &mut Twin, parts: &[Part]) -> Outcome {
    twin.load(&build::image(parts));
    taken(ctx, twin, parts)?;
    let second = build::common_offsets(parts)[1];
    refused(ctx, twin, &variable_calls(), (20, second))
}

/// Makes the calls that take an image with a `common`, however many: check, each partition by its index, find, listing.
fn taken(ctx: &mut Context, twin: &mut Twin, parts: &[Part]) -> Outcome {
    let reply = twin.call(ctx, &Request::Check)?;
    ctx.same("a check", answered(&reply), (0, 0, [parts.len(), 0, 0]))?;
    let offsets = build::offsets(parts);
    for (index, part) in parts.iter().enumerate() {
        let reply = twin.call(ctx, &Request::Partition(index))?;
        let wanted = [offsets[index], part.blocks(), usize::from(part.signature)];
        ctx.same("a partition", answered(&reply), (0, 0, wanted))?;
    }
    let reply = twin.call(ctx, &Request::Partition(parts.len()))?;
    ctx.same("past the last partition", answered(&reply), (6, 0, [0; 3]))?;
    let reply = twin.call(ctx, &Request::Listing(vec![0xBF; 1_000]))?;
    let listed = (reply.code, reply.buffer.starts_with(b"at blocks"));
    ctx.same("a listing", listed, (0, true))?;
    first_found(ctx, twin, parts)
}

/// Finds the first `common` by each of its names, and its data area.
fn first_found(ctx: &mut Context, twin: &mut Twin, parts: &[Part]) -> Outcome {
    let offset = build::common_offsets(parts)[0];
    let first = parts.iter().find(|part| part.is_common());
    let first = first.expect("one with the variables");
    for name in NAMES {
        let reply = twin.call(ctx, &Request::Find(0x70, name.to_vec()))?;
        let wanted = [offset, first.blocks(), 0];
        ctx.same("the first `common`", answered(&reply), (0, 0, wanted))?;
    }
    let range = nvram::find(twin.image(), 0x70, b"common").map(|found| found.data());
    let area = range.map(|range| &twin.image()[range]);
    ctx.same("the first one's data area", area, Ok(&first.data[..]))
}

/// Two and three `common`, side by side and apart; with them headers, image lengths and variable names that break a rule.
pub fn second_common(ctx: &mut Context) -> Outcome {
    let mut twin = Twin::new(&[]);
    pairs_of_commons(ctx, &mut twin)?;
    at_many_offsets(ctx, &mut twin)?;
    among_others(ctx, &mut twin)?;
    for parts in several() {
        broken_headers(ctx, &mut twin, &parts)?;
        bad_calls(ctx, &mut twin, &parts)?;
    }
    Ok(())
}

/// Each two of the partitions for the variables, side by side, with free space around them, and with a third one.
fn pairs_of_commons(ctx: &mut Context, twin: &mut Twin) -> Outcome {
    let commons = commons();
    let free = || Part::free(2);
    for (index, left) in commons.iter().enumerate() {
        for (other, right) in commons.iter().enumerate() {
            ctx.recipe = format!("`common` number {index} and {other}, alone and with a third");
            let third = commons[(index + 3 * other) % commons.len()].clone();
            let (left, right) = (|| left.clone(), || right.clone());
            second_refused(ctx, twin, &[left(), right()])?;
            second_refused(ctx, twin, &[free(), left(), free(), right(), free()])?;
            second_refused(ctx, twin, &[left(), right(), third])?;
        }
    }
    Ok(())
}

/// Two `common` with free space of each length up to 60 blocks between them.
fn at_many_offsets(ctx: &mut Context, twin: &mut Twin) -> Outcome {
    let common = || Part::common(build::padded(b"a=1\0", 16, 0));
    for blocks in 1..=60 {
        ctx.recipe = format!("two `common` with {blocks} blocks between them");
        second_refused(ctx, twin, &[common(), Part::free(blocks), common()])?;
    }
    Ok(())
}

/// The partitions with another one in some of the places before, between and after them; a bit of the number is a place.
fn spread(parts: &[Part], other: &Part, places: usize) -> Vec<Part> {
    let mut all = Vec::new();
    for place in 0..=parts.len() {
        if places >> place & 1 == 1 {
            all.push(other.clone());
        }
        all.extend(parts.get(place).cloned());
    }
    all
}

/// Two and three `common` with each other partition in each set of places before, between and after them.
fn among_others(ctx: &mut Context, twin: &mut Twin) -> Outcome {
    for parts in several() {
        for (index, other) in others().iter().enumerate() {
            for places in 0..1 << (parts.len() + 1) {
                let number = parts.len();
                ctx.recipe = format!("{number} partitions, other {index} at places {places:b}");
                second_refused(ctx, twin, &spread(&parts, other, places))?;
            }
        }
    }
    Ok(())
}

/// Two and three `common`, some of them with leftover bytes, empty areas and faulty ones, and partitions between them.
fn several() -> Vec<Vec<Part>> {
    let [empty, plain, more, split, header, cut, ..] = areas();
    let common = |name: usize, area: &[u8]| Part::new(0x70, NAMES[name], area.to_vec());
    let free = Part::free;
    vec![
        vec![common(0, &plain), common(0, &more)],
        vec![common(0, &empty), common(0, &empty)],
        vec![common(0, &cut), common(1, &plain)],
        vec![common(0, &plain), common(0, &plain), common(0, &plain)],
        vec![common(2, &split), common(0, &empty), common(3, &cut)],
        vec![free(1), common(1, &header), free(3), common(2, &more)],
    ]
}

/// A fault of each header in turn, also of one after the second `common`: every call answers it at that header.
fn broken_headers(ctx: &mut Context, twin: &mut Twin, parts: &[Part]) -> Outcome {
    let parts = spread(parts, &Part::free(2), usize::MAX);
    let image = build::image(&parts);
    let mut calls = variable_calls();
    calls.extend([Request::Check, Request::Partition(0)]);
    calls.push(Request::Find(0x70, b"common".to_vec()));
    for offset in build::offsets(&parts) {
        for code in [2, 3, 4] {
            ctx.recipe = format!("{} partitions, fault {code} at {offset}", parts.len());
            twin.load(&with_fault(&image, offset, code));
            refused(ctx, twin, &calls, (code, offset))?;
        }
    }
    Ok(())
}

/// The image with a fault of 2, 3 or 4 in the header at an offset.
fn with_fault(image: &[u8], offset: usize, code: u32) -> Vec<u8> {
    let mut faulty = image.to_vec();
    let past_end = ((image.len() - offset) / 16 + 1) as u16;
    match code {
        2 => faulty[offset + 2..offset + 4].fill(0),
        3 => faulty[offset + 2..offset + 4].copy_from_slice(&past_end.to_be_bytes()),
        _ => faulty[offset + 1] ^= 0x10,
    }
    faulty
}

/// Image lengths that break the rule, and variable names that do: 1 and 11 are answered before 20.
fn bad_calls(ctx: &mut Context, twin: &mut Twin, parts: &[Part]) -> Outcome {
    let image = build::image(parts);
    for length in [image.len() - 1, image.len() + 1, image.len() + 8] {
        ctx.recipe = format!("{} partitions in {length} bytes", parts.len());
        twin.load(&build::padded(&image[..length.min(image.len())], length, 0));
        refused(ctx, twin, &variable_calls(), (1, 0))?;
    }
    let names: [(&[u8], usize); 5] = [
        (b"", 0),
        (b"A", 0),
        (b"boot device", 4),
        (b"a=", 1),
        (&[b'n'; 32], 31),
    ];
    twin.load(&image);
    for (name, index) in names {
        ctx.recipe = format!("{} partitions, a name of {} bytes", parts.len(), name.len());
        let calls = [
            Request::Read(name.to_vec(), vec![0xBE; 3]),
            Request::Set(name.to_vec(), b"1".to_vec()),
            Request::Remove(name.to_vec()),
        ];
        refused(ctx, twin, &calls, (11, index))?;
    }
    Ok(())
}

/// One `common` beside partitions that are nearly one, before and after it; and such partitions with no `common`.
pub fn one_common(ctx: &mut Context) -> Outcome {
    let mut twin = Twin::new(&[]);
    for (index, other) in others().iter().enumerate() {
        ctx.recipe = format!("no `common`, twice other {index}");
        twin.load(&build::image(&[other.clone(), other.clone()]));
        refused(ctx, &mut twin, &variable_calls(), (6, 0))?;
        for (number, common) in commons().iter().enumerate() {
            for places in 1..4 {
                ctx.recipe = format!("`common` {number}, other {index} at places {places:b}");
                let parts = spread(std::slice::from_ref(common), other, places);
                as_alone(ctx, &mut twin, &parts)?;
            }
        }
    }
    Ok(())
}

/// Makes the calls on an image with one `common`: they answer and leave what they do on that `common` alone.
fn as_alone(ctx: &mut Context, twin: &mut Twin, parts: &[Part]) -> Outcome {
    let (image, start) = (build::image(parts), build::common_offsets(parts)[0]);
    let common = parts.iter().filter(|part| part.is_common()).cloned();
    let single = build::image(&common.collect::<Vec<Part>>());
    twin.load(&image);
    taken(ctx, twin, parts)?;
    let mut alone = Twin::new(&single);
    for call in variable_calls() {
        alone.load(&single);
        twin.load(&image);
        let mut wanted = alone.call(ctx, &call)?;
        let reply = twin.call(ctx, &call)?;
        if (7..=10).contains(&wanted.code) {
            wanted.offset += start;
        }
        ctx.same(
            "the answer with other partitions",
            reply.to_string(),
            wanted.to_string(),
        )?;
        let after = &image[start + single.len()..];
        let left = [&image[..start], alone.image(), after].concat();
        ctx.same("the image afterwards", twin.image(), &left[..])?;
    }
    Ok(())
}

/// Random partitions of which none, one or several are `common`, with leftover bytes in their names; then a broken header.
pub fn random_common(ctx: &mut Context) -> Outcome {
    let mut twin = Twin::new(&[]);
    for round in 0..ctx.amount(3_000) {
        ctx.recipe = format!("random partitions {round}, some of them `common`");
        let parts = random_parts(&mut ctx.rng);
        match build::common_offsets(&parts).len() {
            0 => {
                twin.load(&build::image(&parts));
                refused(ctx, &mut twin, &variable_calls(), (6, 0))?;
            }
            1 => as_alone(ctx, &mut twin, &parts)?,
            _ => second_refused(ctx, &mut twin, &parts)?,
        }
        let offset = *ctx.rng.pick(&build::offsets(&parts));
        let code = *ctx.rng.pick(&[2, 3, 4]);
        ctx.recipe += &format!(", fault {code} at {offset}");
        twin.load(&with_fault(&build::image(&parts), offset, code));
        refused(ctx, &mut twin, &variable_calls(), (code, offset))?;
    }
    Ok(())
}

/// Up to eight partitions, a third of them `common`.
fn random_parts(rng: &mut Rng) -> Vec<Part> {
    let commons = commons();
    let mut parts = Vec::new();
    for _ in 0..rng.between(1, 8) {
        let mut part = match rng.below(6) {
            0 | 1 => rng.pick(&commons).clone(),
            2 => Part::free(rng.between(1, 24)),
            _ => build::other_part(rng),
        };
        if rng.once_in(2) {
            part.name = build::with_leftover(rng, &part.name);
        }
        parts.push(part);
    }
    parts
}

/// Two `common` far apart in images of 65,536 partitions, one behind a long one, and an image of nothing else.
pub fn distant_common(ctx: &mut Context) -> Outcome {
    const PLACES: [(usize, usize); 7] = [
        (0, 1),
        (0, 4_095),
        (0, 65_535),
        (4_095, 4_096),
        (40_000, 40_001),
        (40_000, 65_535),
        (65_534, 65_535),
    ];
    for (first, second) in PLACES {
        ctx.recipe = format!("65,536 partitions of one block, {first} and {second} `common`");
        let mut image = header_bytes(0x7F, 1, &[0x77; 12]).repeat(65_536);
        for index in [first, second] {
            image[16 * index..16 * index + 16].copy_from_slice(&one_block());
        }
        distant_calls(ctx, &image, 16 * first, 16 * second)?;
    }
    ctx.recipe = "65,536 partitions of one block, all `common`".to_string();
    distant_calls(ctx, &one_block().repeat(65_536), 0, 16)?;
    for blocks in [4_095, 4_096, 32_768, 65_535] {
        ctx.recipe = format!("`common` of {blocks} blocks before one of one block");
        let long = Part::common(vec![0; 16 * (blocks - 1)]);
        let image = build::image(&[long, Part::common(vec![])]);
        distant_calls(ctx, &image, 0, 16 * blocks)?;
    }
    Ok(())
}

/// One call of each kind on a long image with two `common` at these offsets, then with its last header broken.
fn distant_calls(ctx: &mut Context, image: &[u8], first: usize, second: usize) -> Outcome {
    let calls = [
        Request::Count,
        Request::Read(b"a".to_vec(), vec![0xBE; 2]),
        Request::Set(b"a".to_vec(), b"1".to_vec()),
        Request::Remove(b"a".to_vec()),
        Request::Normalize,
    ];
    let mut twin = Twin::new(image);
    refused(ctx, &mut twin, &calls, (20, second))?;
    let reply = twin.call(ctx, &Request::Check)?;
    ctx.same("the code of a check", reply.code, 0)?;
    let reply = twin.call(ctx, &Request::Find(0x70, b"common".to_vec()))?;
    let found = (reply.code, reply.amounts[0]);
    ctx.same("the first `common`", found, (0, first))?;
    let last = image.len() - 16;
    twin.load(&with_fault(image, last, 4));
    refused(ctx, &mut twin, &calls, (4, last))
}
