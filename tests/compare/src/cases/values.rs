//! Values of every mixture, long runs, and stored values that are not canonical.

use super::read_three_ways;
use crate::build::{self, Part};
use crate::context::{Context, Outcome};
use crate::request::Request;
use crate::twin::Twin;
use reference::model::{Call, Model};

/// Sets a value between two other variables, checks it with the reference model, and reads it back.
fn set_and_read(ctx: &mut Context, twin: &mut Twin, image: &[u8], value: &[u8]) -> Outcome {
    twin.load(image);
    let mut model = Model::of_image(image).expect("a well-formed area");
    let set = Call::Set {
        name: b"v".to_vec(),
        value: value.to_vec(),
    };
    twin.call_model(ctx, &mut model, &set)?;
    twin.same_entries(ctx, &model)?;
    read_three_ways(ctx, twin, b"v", value.len())
}

/// An image of three variables with so many bytes of room beyond their smallest size.
fn three_variables(room: usize) -> Vec<u8> {
    let area = b"a=1\0v=old\0z=\xFF\x01\xFF\x01\0";
    let length = (area.len() + 1 + room).div_ceil(16) * 16;
    build::image(&[Part::common(build::padded(area, length, 0)), Part::free(1)])
}

/// Every mixture of 0x00, 0xFF and another byte up to 8 bytes.
pub fn mixtures(ctx: &mut Context) -> Outcome {
    let image = three_variables(32);
    let mut twin = Twin::new(&image);
    let longest = if ctx.quick { 6 } else { 8 };
    for length in 0..=longest {
        for number in 0..3usize.pow(length) {
            let digit = |at: u32| [0x00, 0xFF, b'x'][number / 3usize.pow(at) % 3];
            let value: Vec<u8> = (0..length).map(digit).collect();
            ctx.recipe = "three variables, the middle one set to a mixture".to_string();
            set_and_read(ctx, &mut twin, &image, &value)?;
        }
    }
    Ok(())
}

/// Runs of many lengths of 0x00 and of 0xFF, alone and beside each other.
pub fn runs(ctx: &mut Context) -> Outcome {
    const LENGTHS: [usize; 14] = [
        0, 1, 2, 63, 64, 126, 127, 128, 253, 254, 255, 256, 381, 1_000,
    ];
    let image = three_variables(128);
    let mut twin = Twin::new(&image);
    ctx.recipe = "three variables, the middle one set to two runs".to_string();
    let last = ctx.amount(1_200);
    for byte in [0x00, 0xFF] {
        for length in 0..=last {
            set_and_read(ctx, &mut twin, &image, &vec![byte; length])?;
        }
    }
    for first in LENGTHS {
        for second in LENGTHS {
            for (one, other) in [(0x00, 0xFF), (0xFF, 0x00), (0x00, b'x'), (b'x', 0xFF)] {
                let pair = [vec![one; first], vec![other; second]].concat();
                set_and_read(ctx, &mut twin, &image, &pair)?;
                for middle in [b'=', 0x01, 0x7F, 0x80, 0xFE] {
                    let value = [vec![one; first], vec![middle], vec![one; second]].concat();
                    set_and_read(ctx, &mut twin, &image, &value)?;
                }
            }
        }
    }
    Ok(())
}

/// Every value of one byte and of two bytes.
pub fn two_bytes(ctx: &mut Context) -> Outcome {
    let image = three_variables(16);
    let mut twin = Twin::new(&image);
    ctx.recipe = "three variables, the middle one set to one or two bytes".to_string();
    let step = if ctx.quick { 11 } else { 1 };
    for byte in 0..=255 {
        set_and_read(ctx, &mut twin, &image, &[byte])?;
    }
    for pair in (0..=u16::MAX).step_by(step) {
        set_and_read(ctx, &mut twin, &image, &pair.to_be_bytes())?;
    }
    Ok(())
}

/// Areas whose stored values have split runs, in areas with little room.
pub fn split_runs(ctx: &mut Context) -> Outcome {
    for round in 0..ctx.amount(4_000) {
        ctx.recipe = format!("area {round} with split runs");
        let number = ctx.rng.between(1, 6);
        let pairs = build::pairs(&mut ctx.rng, number, 300, 1);
        let area = build::area(&mut ctx.rng, &pairs, 1);
        let image = build::around(&mut ctx.rng, area);
        let model = Model::of_image(&image).expect("a well-formed area");
        let mut twin = Twin::new(&image);
        for entry in &model.entries {
            read_three_ways(ctx, &mut twin, &entry.name, entry.value.len())?;
        }
        for entry in &model.entries {
            let calls = [
                Call::Set {
                    name: entry.name.clone(),
                    value: entry.value.clone(),
                },
                Call::Remove {
                    name: entry.name.clone(),
                },
                Call::Normalize,
            ];
            for call in calls {
                twin.load(&image);
                let mut changed = model.clone();
                twin.call_model(ctx, &mut changed, &call)?;
                twin.same_entries(ctx, &changed)?;
            }
        }
        normalize_twice(ctx, &mut twin, &image, model)?;
    }
    Ok(())
}

/// Normalizes an image, compares it with the canonical area, and normalizes it again.
fn normalize_twice(ctx: &mut Context, twin: &mut Twin, image: &[u8], mut model: Model) -> Outcome {
    twin.load(image);
    let range = reference::variables_range(image).expect("an accepted image");
    twin.call_model(ctx, &mut model, &Call::Normalize)?;
    let canonical = reference::model::canonical_area(model.room, &model.entries);
    ctx.same("the canonical area", &twin.image()[range], &canonical[..])?;
    let once = twin.image().to_vec();
    twin.call(ctx, &Request::Normalize)?;
    ctx.same("the area normalized twice", twin.image(), &once[..])
}
