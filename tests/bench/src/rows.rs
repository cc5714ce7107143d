//! The rows of one input.

use crate::calls::Call;
use crate::format;
use crate::inputs::{self, Input, Kind, Variables};
use crate::limit;
use crate::table::Row;
use crate::timing::{self, Effort, Round};
use std::hint::black_box;

/// The bytes of the buffer lent to reads and listings, which is as long as the longest image.
const BUFFER: usize = 1_048_576;

/// The longest image that is listed.
const LISTED: usize = 65_536;

/// The shortest area on which the edits have a limit.
const LARGE_AREA: usize = 60_000;

/// A name that no input has.
const NEW_NAME: &[u8] = b"a-new-name";

/// The bytes by which a longer or shorter value differs from the stored one.
const STEP: usize = 16;

/// Measures the rows of inputs, all with the same effort.
pub struct Bench {
    pub effort: Effort,
}

/// The limit of a row that has none.
const NO_LIMIT: Option<Round<'static>> = None;

impl Bench {
    /// Tests that the sides agree on a call, then times it.
    fn row(
        &self,
        input: &Input,
        label: &str,
        call: Call,
        image: &[u8],
        limit: Option<Round>,
    ) -> Result<Row, String> {
        let answer = call
            .agreed(image, &vec![0x5A; BUFFER])
            .map_err(|text| format!("{}, {label}: {text}", input.title))?;
        let mut sides = sides(call, image);
        sides.extend(limit.filter(|_| answer.code == 0));
        let times = timing::least(&mut sides, self.effort);
        let call = match answer.code {
            0 => label.to_string(),
            code => format!("{label} (error code {code})"),
        };
        let limit = times.get(2).copied();
        Ok(Row {
            input: input.title.clone(),
            call,
            library: times[0],
            reference: times[1],
            limit,
        })
    }

    /// All rows of an input, each handed on as soon as it is measured.
    pub fn input(&self, input: &Input, done: &mut dyn FnMut(&Row)) -> Result<(), String> {
        let limit = (input.kind == Kind::Partitions).then(|| header_limit(&input.image));
        done(&self.row(input, "check", Call::Check, &input.image, limit)?);
        if matches!(input.kind, Kind::Stored | Kind::Partitions) {
            let (signature, name) = format::last_partition(&input.image);
            let call = Call::Find(signature, &name);
            done(&self.row(input, "find the last", call, &input.image, NO_LIMIT)?);
        }
        match &input.variables {
            Some(variables) => {
                self.reading(input, variables, done)?;
                self.editing(input, variables, done)?;
            }
            None => done(&self.row(input, "count", Call::Count, &input.image, NO_LIMIT)?),
        }
        let new = Call::Set(NEW_NAME, b"value");
        done(&self.row(input, "set, a new name", new, &input.image, NO_LIMIT)?);
        self.normalizing(input, done)?;
        if input.image.len() <= LISTED {
            done(&self.row(input, "listing", Call::Listing, &input.image, NO_LIMIT)?);
        }
        Ok(())
    }

    /// The rows of count and read.
    fn reading(
        &self,
        input: &Input,
        variables: &Variables,
        done: &mut dyn FnMut(&Row),
    ) -> Result<(), String> {
        let image = &input.image;
        let area = &image[variables.area.clone()];
        let used = &area[..variables.used];
        done(&self.row(input, "count", Call::Count, image, Some(ends_limit(used)))?);
        let limit = match input.kind {
            Kind::LargeValue => copy_limit(&variables.last.value),
            _ => ends_limit(used),
        };
        done(&self.row(
            input,
            "read the last",
            Call::Read(&variables.last.name),
            image,
            Some(limit),
        )?);
        Ok(())
    }

    /// The rows of set and remove, all on the first variable.
    fn editing(
        &self,
        input: &Input,
        variables: &Variables,
        done: &mut dyn FnMut(&Row),
    ) -> Result<(), String> {
        let name = &variables.first.name;
        let value = &variables.first.value;
        let same: Vec<u8> = value.iter().rev().copied().collect();
        let longer = [value.as_slice(), &[b'x'; STEP]].concat();
        let shorter = &value[..value.len().saturating_sub(STEP)];
        let values = [
            ("set, same size", same.as_slice()),
            ("set, longer", &longer),
            ("set, shorter", shorter),
        ];
        for (label, value) in values {
            let limit = edit_limit(input, variables, format::pair(name, value));
            done(&self.row(input, label, Call::Set(name, value), &input.image, limit)?);
        }
        let limit = edit_limit(input, variables, Vec::new());
        done(&self.row(
            input,
            "remove the first",
            Call::Remove(name),
            &input.image,
            limit,
        )?);
        Ok(())
    }

    /// The rows of normalize, on the canonical form and on an area with split runs.
    fn normalizing(&self, input: &Input, done: &mut dyn FnMut(&Row)) -> Result<(), String> {
        let mut canonical = input.image.clone();
        if reference::normalize(&mut canonical).is_err() {
            done(&self.row(input, "normalize", Call::Normalize, &input.image, NO_LIMIT)?);
            return Ok(());
        }
        done(&self.row(
            input,
            "normalize, canonical",
            Call::Normalize,
            &canonical,
            NO_LIMIT,
        )?);
        if let Some(split) = inputs::with_split_runs(input) {
            done(&self.row(
                input,
                "normalize, split runs",
                Call::Normalize,
                &split,
                NO_LIMIT,
            )?);
        }
        Ok(())
    }
}

/// The rounds of the library and of the reference, each with an image and a buffer of its own.
fn sides<'a>(call: Call<'a>, image: &'a [u8]) -> Vec<Round<'a>> {
    let mut buffer_l = vec![0x5A; BUFFER];
    let mut buffer_r = buffer_l.clone();
    let mut library = move |image: &mut [u8]| call.library(image, &mut buffer_l);
    let mut reference = move |image: &mut [u8]| call.reference(image, &mut buffer_r);
    if call.edits() {
        return vec![
            timing::edited(image, library),
            timing::edited(image, reference),
        ];
    }
    let (mut image_l, mut image_r) = (image.to_vec(), image.to_vec());
    vec![
        timing::repeated(move || library(black_box(&mut image_l))),
        timing::repeated(move || reference(black_box(&mut image_r))),
    ]
}

/// The sum of all headers in C.
fn header_limit(image: &[u8]) -> Round<'_> {
    timing::repeated(move || limit::headers(black_box(image)))
}

/// The search for the ends of the pairs in C.
fn ends_limit(used: &[u8]) -> Round<'_> {
    timing::repeated(move || limit::ends(black_box(used)))
}

/// The copy of a value in C.
fn copy_limit(value: &[u8]) -> Round<'_> {
    let mut buffer = vec![0; value.len()];
    timing::repeated(move || limit::copy(black_box(&mut buffer), black_box(value)))
}

/// The writes of the first pair's replacement in C, if the area is large and many bytes are moved or written.
fn edit_limit<'a>(input: &'a Input, variables: &'a Variables, pair: Vec<u8>) -> Option<Round<'a>> {
    let old = variables.first.size;
    let fits = variables.used - old + pair.len() <= variables.area.len();
    let stays = pair.len() == old && input.kind != Kind::LargeValue;
    if !fits || stays || variables.area.len() < LARGE_AREA {
        return None;
    }
    let call = move |image: &mut [u8]| {
        let area = &mut image[variables.area.clone()];
        limit::edit(area, variables.used, old, &pair);
    };
    Some(timing::edited(&input.image, call))
}
