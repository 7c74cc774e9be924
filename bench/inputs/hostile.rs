//! Files that no machine wrote: many stops, random bytes, and zero bytes without an end.

use std::fs::{self, OpenOptions};
use std::path::Path;

use crate::formats::Format;
use crate::random::Random;

/// An EXP file of a stitch and a stop, again and again.
pub fn stops(count: usize) -> Vec<u8> {
    [0x05, 0x05, 0x80, 0x01, 0x00, 0x00, 0xFB, 0xFB, 0x80, 0x01, 0x00, 0x00]
        .iter()
        .copied()
        .cycle()
        .take(6 * count)
        .collect()
}

/// As much of a right beginning as a reader requires before it reads records.
fn beginning(format: Format) -> Vec<u8> {
    match format {
        Format::Dst => [b"LA:hostile".as_slice(), &[b' '; 502]].concat(),
        Format::Exp => Vec::new(),
        Format::Pec => [b"#PEC0001LA:hostile".as_slice(), &[b' '; 518]].concat(),
        Format::Pes => [b"#PES0001\x16".as_slice(), &[0; 13], b"LA:hostile", &[b' '; 518]].concat(),
        Format::Lst => b"stitch-list 1\nlabel [hostile]\nblock 1\n".to_vec(),
    }
}

/// Writes `hostile` with random bytes and `zeros` with zero bytes after the beginning.
pub fn write(folder: &Path, format: Format, length: usize) {
    let mut bytes = beginning(format);
    let zeros = folder.join(format!("zeros.{}", format.ending()));
    fs::write(&zeros, &bytes).unwrap();
    OpenOptions::new().write(true).open(&zeros).unwrap().set_len(length as u64).unwrap();

    let mut random = Random::new(length as u64 + format as u64);
    bytes.reserve(length);
    while bytes.len() < length {
        bytes.extend_from_slice(&random.word().to_le_bytes());
    }
    bytes.truncate(length);
    fs::write(folder.join(format!("hostile.{}", format.ending())), bytes).unwrap();
}
