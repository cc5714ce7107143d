//! The text that `nvlist` prints.

use crate::header::{self, Partition, BLOCK};

/// The longest image that is listed.
const LONGEST_LISTED: usize = 65_536;

/// The whole output of `nvlist` for an image.
pub fn listing(image: &[u8]) -> Vec<u8> {
    if image.len() > LONGEST_LISTED {
        return b"too long\n".to_vec();
    }
    let partitions = match header::partitions(image) {
        Ok(partitions) => partitions,
        Err(refusal) => {
            return format!("refused {} at {}\n", refusal.code, refusal.offset).into_bytes();
        }
    };
    let mut text = String::from("at blocks sig name\n");
    for partition in &partitions {
        text.push_str(&format!(
            "{} {} {:02X} {}\n",
            partition.offset,
            partition.blocks,
            partition.signature,
            shown_name(partition)
        ));
    }
    text.push_str(&format!("{} blocks\n", image.len() / BLOCK));
    text.into_bytes()
}

/// The name up to its first 0x00, with `?` for bytes outside 0x21 to 0x7E.
fn shown_name(partition: &Partition) -> String {
    let bytes = partition.name.iter().take_while(|&&byte| byte != 0);
    bytes
        .map(|&byte| match byte {
            0x21..=0x7E => byte as char,
            _ => '?',
        })
        .collect()
}
