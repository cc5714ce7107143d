//! Lists of calls, checked after each call against the reference and the reference model.

use crate::build::{self, Part};
use crate::context::{Context, Outcome};
use crate::rng::Rng;
use crate::twin::Twin;
use reference::model::{canonical_area, Call, Model};

/// A call with a name that the reference model has, most often.
fn random_call(rng: &mut Rng, model: &Model, longest: usize) -> Call {
    let known = !model.entries.is_empty() && rng.once_in(2);
    let entry = match known {
        true => Some(rng.pick(&model.entries)),
        false => None,
    };
    let name = match entry {
        Some(entry) => entry.name.clone(),
        None => build::any_name(rng),
    };
    match rng.below(16) {
        0..=6 => Call::Set {
            name,
            value: random_value(rng, longest),
        },
        7..=9 => Call::Remove { name },
        10 => Call::Normalize,
        11 => Call::Count,
        _ => {
            let length = entry.map_or(4, |entry| entry.value.len());
            let room = (length + rng.below(4)).saturating_sub(1);
            let buffer = vec![rng.byte(); room];
            Call::Read { name, buffer }
        }
    }
}

fn random_value(rng: &mut Rng, longest: usize) -> Vec<u8> {
    match rng.below(4) {
        0 => {
            let length = rng.below(longest + 1);
            build::plain_value(rng, length)
        }
        _ => build::value(rng, longest),
    }
}

/// Many short lists of calls on small images.
pub fn call_lists(ctx: &mut Context) -> Outcome {
    for round in 0..ctx.amount(2_500) {
        ctx.recipe = format!("random image {round}, then random calls");
        let longest = *ctx.rng.pick(&[2, 8, 40, 300]);
        let spare = *ctx.rng.pick(&[0, 1, 4, 20]);
        let image = build::random_image(&mut ctx.rng, 6, longest, spare);
        let mut model = Model::of_image(&image).expect("a well-formed area");
        let mut twin = Twin::new(&image);
        for _ in 0..60 {
            let call = random_call(&mut ctx.rng, &model, longest);
            twin.call_model(ctx, &mut model, &call)?;
            twin.same_entries(ctx, &model)?;
        }
        end_canonical(ctx, &mut twin, &mut model)?;
    }
    Ok(())
}

/// Normalizes at the end and compares the area with the canonical form of the entries.
fn end_canonical(ctx: &mut Context, twin: &mut Twin, model: &mut Model) -> Outcome {
    twin.call_model(ctx, model, &Call::Normalize)?;
    let range = reference::variables_range(twin.image()).expect("an accepted image");
    let canonical = canonical_area(model.room, &model.entries);
    ctx.same(
        "the canonical area at the end",
        &twin.image()[range],
        &canonical[..],
    )
}

/// A hundred thousand accepted edits on one image that starts canonical, with a comparison after each.
pub fn soak(ctx: &mut Context) -> Outcome {
    ctx.recipe = "a canonical image of 8 KiB, then random edits".to_string();
    let area = build::padded(b"auto-boot?=true\0boot-device=disk\0", 8_192 - 16 - 16, 0);
    let mut twin = Twin::new(&build::image(&[Part::common(area), Part::free(1)]));
    let mut model = Model::of_image(twin.image()).expect("a well-formed area");
    let (mut accepted, wanted) = (0, ctx.amount(100_000));
    while accepted < wanted {
        let call = soak_edit(&mut ctx.rng, &model);
        let reply = twin.call_model(ctx, &mut model, &call)?;
        accepted += (reply.code == 0) as usize;
        if accepted % 100 == 0 {
            twin.same_entries(ctx, &model)?;
        }
    }
    twin.same_entries(ctx, &model)?;
    let range = reference::variables_range(twin.image()).expect("an accepted image");
    let canonical = canonical_area(model.room, &model.entries);
    ctx.same(
        "the area after the edits and before a normalize",
        &twin.image()[range],
        &canonical[..],
    )?;
    end_canonical(ctx, &mut twin, &mut model)
}

/// An edit; the share of removals keeps the area from half full to full.
fn soak_edit(rng: &mut Rng, model: &Model) -> Call {
    let name = match model.entries.is_empty() || rng.once_in(3) {
        true => format!("var-{}", rng.below(400)).into_bytes(),
        false => rng.pick(&model.entries).name.clone(),
    };
    match rng.below(20) {
        0 => Call::Normalize,
        1 => Call::Set {
            name: build::any_name(rng),
            value: random_value(rng, 6_000),
        },
        2..=4 => Call::Remove { name },
        _ => Call::Set {
            name,
            value: random_value(rng, 120),
        },
    }
}
