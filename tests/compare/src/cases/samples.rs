//! Images written by real firmware.

use super::finding::as_without;
use super::read_three_ways;
use super::second::{refused, variable_calls};
use crate::build;
use crate::context::{Context, Failure, Outcome};
use crate::request::Request;
use crate::twin::Twin;
use reference::model::{Call, Model};
use std::fs;
use std::path::{Path, PathBuf};

/// All images of the samples folder, in the order of their names.
fn sample_files(folder: &Path) -> Result<Vec<PathBuf>, Failure> {
    let unreadable =
        |error: std::io::Error| Failure(format!("  folder:    {}: {error}", folder.display()));
    let mut files = Vec::new();
    for entry in fs::read_dir(folder).map_err(unreadable)? {
        let path = entry.map_err(unreadable)?.path();
        if path.extension().is_some_and(|end| end == "img") {
            files.push(path);
        }
    }
    files.sort();
    match files.is_empty() {
        true => Err(Failure(format!(
            "  folder:    {} has no images",
            folder.display()
        ))),
        false => Ok(files),
    }
}

fn file_bytes(path: &Path) -> Result<Vec<u8>, Failure> {
    fs::read(path).map_err(|error| Failure(format!("  file:      {}: {error}", path.display())))
}

/// Every question about every sample, the same calls with leftover bytes in its headers and on the card twice, then random
/// edits on a copy.
pub fn samples(ctx: &mut Context) -> Outcome {
    let Some(folder) = ctx.samples.clone() else {
        return Err(Failure("  folder:    none is given".to_string()));
    };
    for path in sample_files(&folder)? {
        let shown = path
            .file_name()
            .unwrap_or_default()
            .to_string_lossy()
            .into_owned();
        ctx.recipe = format!("the sample {shown}");
        let image = file_bytes(&path)?;
        let list = file_bytes(&path.with_extension("list"))?;
        let text = ask(ctx, &image)?;
        ctx.same("the listing and its file", text, list)?;
        let leftover = build::with_leftovers(&mut ctx.rng, &image);
        as_without(ctx, &image, &leftover)?;
        card_twice(ctx, &image, &leftover)?;
        if let Ok(model) = Model::of_image(&image) {
            read_all(ctx, &image, &model)?;
            edit(ctx, &image, model)?;
        }
    }
    Ok(())
}

/// Asks for the check, all partitions and the count, and answers the listing.
fn ask(ctx: &mut Context, image: &[u8]) -> Result<Vec<u8>, Failure> {
    let mut twin = Twin::new(image);
    let partitions = twin.call(ctx, &Request::Check)?.amounts[0];
    for index in 0..partitions + 2 {
        let reply = twin.call(ctx, &Request::Partition(index))?;
        if reply.code == 0 {
            let [header, _, signature] = reply.amounts;
            let name = image[header + 4..header + 16].to_vec();
            twin.call(ctx, &Request::Find(signature as u8, name.clone()))?;
            twin.call(ctx, &Request::Find(signature as u8 ^ 1, name))?;
        }
    }
    twin.call(ctx, &Request::Count)?;
    twin.call(ctx, &Request::Set(b"a".to_vec(), b"1".to_vec()))?;
    twin.call(ctx, &Request::Normalize)?;
    twin.load(image);
    let reply = twin.call(ctx, &Request::Listing(vec![0; 100_000]))?;
    Ok(reply.buffer[..reply.amounts[0]].to_vec())
}

/// A card has at most one `common`; with a copy of itself behind it every call on variables answers 20 at the copy's.
fn card_twice(ctx: &mut Context, card: &[u8], copy: &[u8]) -> Outcome {
    let mut twin = Twin::new(card);
    let count = twin.call(ctx, &Request::Count)?;
    ctx.same("a second `common` on the card", count.code == 20, false)?;
    let partitions = twin.call(ctx, &Request::Check)?.amounts[0];
    let find = Request::Find(0x70, b"common".to_vec());
    let first = twin.call(ctx, &find)?;
    let second = match first.code {
        0 => (20, card.len() + first.amounts[0]),
        code => (code, 0),
    };
    twin.load(&[card, copy].concat());
    let reply = twin.call(ctx, &Request::Check)?;
    ctx.same("the partitions", reply.amounts[0], 2 * partitions)?;
    let reply = twin.call(ctx, &find)?;
    ctx.same("the first one", reply.to_string(), first.to_string())?;
    refused(ctx, &mut twin, &variable_calls(), second)
}

fn read_all(ctx: &mut Context, image: &[u8], model: &Model) -> Outcome {
    let mut twin = Twin::new(image);
    for entry in &model.entries {
        read_three_ways(ctx, &mut twin, &entry.name, entry.value.len())?;
    }
    Ok(())
}

/// Random edits on a copy, with a read of what was set.
fn edit(ctx: &mut Context, image: &[u8], mut model: Model) -> Outcome {
    let mut twin = Twin::new(image);
    for _ in 0..ctx.amount(400) {
        let name = match !model.entries.is_empty() && ctx.rng.once_in(2) {
            true => ctx.rng.pick(&model.entries).name.clone(),
            false => build::any_name(&mut ctx.rng),
        };
        let value = build::value(&mut ctx.rng, 500);
        let call = match ctx.rng.below(8) {
            0 | 1 => Call::Remove { name },
            2 => Call::Normalize,
            3 => Call::Count,
            4 => Call::Read {
                name,
                buffer: vec![0xB0; 600],
            },
            _ => Call::Set { name, value },
        };
        twin.call_model(ctx, &mut model, &call)?;
        twin.same_entries(ctx, &model)?;
    }
    Ok(())
}
