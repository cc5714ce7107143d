//! The images that the calls are timed on.

use crate::format;
use std::fs;
use std::ops::Range;
use std::path::Path;

/// A variable as it stands in the area.
pub struct Variable {
    pub name: Vec<u8>,
    pub value: Vec<u8>,
    pub size: usize,
}

/// Where the variables of an image stand.
pub struct Variables {
    pub area: Range<usize>,
    pub used: usize,
    pub count: usize,
    pub first: Variable,
    pub last: Variable,
}

/// What an input is for.
#[derive(Clone, Copy, PartialEq)]
pub enum Kind {
    /// An image from the folder.
    Stored,
    /// Many variables, with a line in the table of growth.
    Many,
    /// One-block partitions only.
    Partitions,
    /// One large value.
    LargeValue,
}

/// One image with what the rows need to know of it.
pub struct Input {
    pub title: String,
    pub image: Vec<u8>,
    pub kind: Kind,
    pub variables: Option<Variables>,
}

/// Describes the variables of an image, if it has any and the reference accepts them.
fn variables(image: &[u8]) -> Option<Variables> {
    reference::count(image).ok()?;
    let area = format::area(image)?;
    let bytes = &image[area.clone()];
    let pairs = format::pairs(bytes);
    let variable = |place: &Range<usize>| {
        let (name, value) = format::decode(&bytes[place.clone()]);
        Variable {
            name,
            value,
            size: place.len(),
        }
    };
    let (first, last) = (pairs.first()?, pairs.last()?);
    Some(Variables {
        area,
        used: last.end + 1,
        count: pairs.len(),
        first: variable(first),
        last: variable(last),
    })
}

/// An input with the description of its variables.
fn input(kind: Kind, title: &str, image: Vec<u8>) -> Input {
    let variables = variables(&image);
    Input {
        title: title.to_string(),
        image,
        kind,
        variables,
    }
}

/// The images of a folder, by name.
fn stored(folder: &Path) -> Result<Vec<Input>, String> {
    let failed = |error| format!("{}: {error}", folder.display());
    let mut paths = Vec::new();
    for entry in fs::read_dir(folder).map_err(failed)? {
        let path = entry.map_err(failed)?.path();
        if path.extension().is_some_and(|extension| extension == "img") {
            paths.push(path);
        }
    }
    paths.sort();
    let mut inputs = Vec::new();
    for path in paths {
        let title = path
            .file_name()
            .unwrap_or_default()
            .to_string_lossy()
            .into_owned();
        inputs.push(input(
            Kind::Stored,
            &title,
            fs::read(&path).map_err(failed)?,
        ));
    }
    Ok(inputs)
}

/// The name with this number, in three bytes.
fn short_name(number: usize) -> Vec<u8> {
    let letters = format::alphabet();
    let digit = |place: usize| letters[number / place % letters.len()];
    vec![
        digit(letters.len() * letters.len()),
        digit(letters.len()),
        digit(1),
    ]
}

/// A value of plain bytes in which every eighth variable has a run of zeros at its end.
fn short_value(number: usize, length: usize) -> Vec<u8> {
    let mut value: Vec<u8> = (0..length)
        .map(|at| b'a' + ((number + at) % 26) as u8)
        .collect();
    if number % 8 == 7 && length > 20 {
        value[length - 20..].fill(0);
    }
    value
}

/// An image with many variables, all of values of one length.
fn many(title: &str, blocks: usize, count: usize, length: usize) -> Input {
    let pairs: Vec<u8> = (0..count)
        .flat_map(|number| format::pair(&short_name(number), &short_value(number, length)))
        .collect();
    input(Kind::Many, title, format::image(blocks, &pairs))
}

/// An image of one-block partitions only.
fn one_block_partitions() -> Input {
    let image = (0..65_536)
        .flat_map(|number| format::header(0xA0, 1, format!("{number:06}").as_bytes()))
        .collect();
    input(Kind::Partitions, "65,536 one-block partitions", image)
}

/// An image of one-block partitions that all have the signature of the variables, and names that begin with `common`; the
/// last name differs from the others in its last byte.
fn one_signature() -> Input {
    let mut image = format::header(0x70, 1, b"common-log-1").repeat(65_535);
    image.extend(format::header(0x70, 1, b"common-log-2"));
    let title = "65,536 one-block partitions of signature 0x70";
    input(Kind::Partitions, title, image)
}

/// The same behind a `common` of one block, so that a call on variables has to look for a second one among all the others.
fn one_signature_after_common() -> Input {
    let mut image = format::header(0x70, 1, b"common").to_vec();
    image.extend(format::header(0x70, 1, b"common-log-1").repeat(65_534));
    image.extend(format::header(0x70, 1, b"common-log-2"));
    let title = "common and 65,535 one-block partitions of signature 0x70";
    input(Kind::Partitions, title, image)
}

/// An image with one variable that has this value.
fn one_value(title: &str, value: &[u8]) -> Input {
    let pair = format::pair(b"value", value);
    input(Kind::LargeValue, title, format::image(65_536, &pair))
}

/// Bytes in runs of 1 to 300, of plain bytes, of 0x00 and of 0xFF by a fixed pseudorandom order.
fn mixed_runs(length: usize) -> Vec<u8> {
    let mut state = 0x9E37_79B9_7F4A_7C15_u64;
    let mut value = Vec::new();
    while value.len() < length {
        state ^= state << 13;
        state ^= state >> 7;
        state ^= state << 17;
        let run = 1 + (state >> 8) as usize % 300;
        match state % 3 {
            0 => value.resize(value.len() + run, 0x00),
            1 => value.resize(value.len() + run, 0xFF),
            _ => value.extend((0..run).map(|at| 1 + (at % 254) as u8)),
        }
    }
    value.truncate(length);
    value
}

/// Distinct names of 31 bytes with a common start of 24 bytes.
fn long_names(count: usize) -> Vec<Vec<u8>> {
    (0..count)
        .map(|number| format!("{:-<24}{number:07}", "prefix").into_bytes())
        .collect()
}

/// The low bits of the library's hash in which the crafted names agree.
const SHARED: u64 = (1 << 18) - 1;

/// What a byte adds to the library's hash of a name.
fn mixed(byte: u8) -> u64 {
    u64::from(byte) * 44_534_042_262_981_245
}

/// The library's hash of a name, one byte further.
fn hashed(hash: u64, byte: u8) -> u64 {
    ((hash & 0xFFFF_FFFF) * 4_294_957_665 + (hash >> 32)) ^ mixed(byte)
}

/// Names of 7 bytes whose hashes agree in the shared bits, so that they stand in one tree of the library's table.
struct Search {
    letters: Vec<u8>,
    last: Vec<Option<u8>>,
    names: Vec<Vec<u8>>,
    count: usize,
}

impl Search {
    fn extend(&mut self, start: &mut Vec<u8>, hash: u64) {
        if self.names.len() == self.count {
            return;
        }
        if start.len() < 6 {
            for byte in self.letters.clone() {
                start.push(byte);
                self.extend(start, hashed(hash, byte));
                start.pop();
            }
            return;
        }
        let next = hashed(hash, 0);
        if let Some(byte) = self.last[(next & SHARED) as usize] {
            self.names.push([&start[..], &[byte]].concat());
        }
    }
}

/// Distinct names that make the test of a second name slow: they agree in 18 bits of its hash.
pub fn crafted_names(count: usize) -> Vec<Vec<u8>> {
    let letters: Vec<u8> = (b'a'..=b'z').chain(b'0'..=b'9').collect();
    let mut last = vec![None; SHARED as usize + 1];
    for &byte in &letters {
        last[(mixed(byte) & SHARED) as usize] = Some(byte);
    }
    let mut search = Search {
        letters,
        last,
        names: Vec::new(),
        count,
    };
    search.extend(&mut Vec::new(), 11_400_714_819_323_198_485);
    search.names
}

/// The lines of a file, as names to use instead of the crafted ones.
fn names_of_file(path: &Path) -> Result<Vec<Vec<u8>>, String> {
    let bytes = fs::read(path).map_err(|error| format!("{}: {error}", path.display()))?;
    Ok(bytes
        .split(|&byte| byte == b'\n')
        .filter(|line| !line.is_empty())
        .map(<[u8]>::to_vec)
        .collect())
}

/// An image of these names, as many as leave 1,024 bytes of the area free, all with the value `1`.
fn of_names(what: &str, names: &[Vec<u8>]) -> Input {
    let room = 65_534 * format::BLOCK - 1024;
    let mut pairs = Vec::new();
    let mut count = 0;
    for name in names {
        let pair = format::pair(name, b"1");
        if pairs.len() + pair.len() > room {
            break;
        }
        pairs.extend_from_slice(&pair);
        count += 1;
    }
    let title = format!("1 MiB, {} {what}", crate::table::grouped(count));
    input(Kind::Many, &title, format::image(65_536, &pairs))
}

/// All inputs: the images of the folder, then the made ones.
pub fn all(folder: &Path, names: Option<&Path>) -> Result<Vec<Input>, String> {
    let mut inputs = stored(folder)?;
    let names = match names {
        Some(path) => names_of_file(path)?,
        None => crafted_names(104_000),
    };
    inputs.push(many("8 KiB, 25 variables", 512, 25, 290));
    inputs.push(many("64 KiB, 1,000 variables", 4096, 1000, 57));
    inputs.push(many("1 MiB, 10,000 variables", 65_536, 10_000, 95));
    inputs.push(many("1 MiB, 150,000 variables", 65_536, 150_000, 1));
    inputs.push(of_names("names of 31 bytes", &long_names(30_000)));
    inputs.push(of_names("crafted names", &names));
    inputs.push(many("1 MiB, 104,000 variables", 65_536, 104_000, 2));
    inputs.push(one_block_partitions());
    inputs.push(one_signature());
    inputs.push(one_signature_after_common());
    inputs.push(one_value(
        "1,000,000 plain bytes in one value",
        &vec![b'x'; 1_000_000],
    ));
    inputs.push(one_value(
        "1,000,000 bytes of mixed runs in one value",
        &mixed_runs(1_000_000),
    ));
    Ok(inputs)
}

/// The image with the first value begun by a split run and all other runs split, where there is room.
pub fn with_split_runs(input: &Input) -> Option<Vec<u8>> {
    let variables = input.variables.as_ref()?;
    let mut image = input.image.clone();
    let area = &input.image[variables.area.clone()];
    let mut left = area.len() - variables.used;
    let mut bytes = Vec::new();
    for (number, place) in format::pairs(area).into_iter().enumerate() {
        let pair = &area[place];
        let mut split = format::split_runs(pair);
        if number == 0 {
            let start = variables.first.name.len() + 1;
            split.splice(start..start, [0xFF, 1, 0xFF, 1]);
        }
        let fits = split.len() - pair.len() <= left;
        left -= if fits { split.len() - pair.len() } else { 0 };
        bytes.extend_from_slice(if fits { &split } else { pair });
    }
    bytes.resize(area.len(), 0);
    image[variables.area.clone()].copy_from_slice(&bytes);
    Some(image)
}
