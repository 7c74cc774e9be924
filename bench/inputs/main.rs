//! Makes the benchmark's inputs: `inputs FOLDER SIZES STOPS BYTES`, where SIZES are numbers of
//! commands with commas between, STOPS is the length of the file of stops, and BYTES that of each
//! hostile file. The same arguments always make the same files.
//!
//! The records are written by the baseline's writers.

#![allow(dead_code)]

#[path = "../baseline/acts.rs"]
mod acts;
#[path = "../baseline/design.rs"]
mod design;
#[path = "../baseline/dst.rs"]
mod dst;
#[path = "../baseline/exp.rs"]
mod exp;
#[path = "../baseline/formats.rs"]
mod formats;
mod hostile;
#[path = "../baseline/lst.rs"]
mod lst;
#[path = "../baseline/pec.rs"]
mod pec;
#[path = "../baseline/pes.rs"]
mod pes;
mod random;
#[path = "../baseline/reading.rs"]
mod reading;
mod sewing;
#[path = "../baseline/writing.rs"]
mod writing;

use std::env;
use std::fs;
use std::path::Path;

use design::Design;
use formats::Format;
use sewing::{sew, Cloth};

const FORMATS: [Format; 5] =
    [Format::Dst, Format::Exp, Format::Pec, Format::Pes, Format::Lst];

fn write_design(folder: &Path, name: &str, design: &Design, format: Format) {
    let bytes = match format.encode(design) {
        Ok(bytes) => bytes,
        Err(fault) => panic!("{name}: command {}: {}", fault.number, fault.text),
    };
    fs::write(folder.join(format!("{name}.{}", format.ending())), bytes).unwrap();
}

/// One design in all formats, and one that must be refitted, as PES.
fn write_size(folder: &Path, size: usize) {
    let plain = sew(size, Cloth::Fitting);
    for format in FORMATS {
        write_design(folder, &size.to_string(), &plain, format);
    }
    write_design(folder, &format!("wide-{size}"), &sew(size, Cloth::Wide), Format::Pes);
}

fn main() {
    let words: Vec<String> = env::args().collect();
    let [_, folder, sizes, stops, bytes] = words.as_slice() else {
        panic!("usage: inputs FOLDER SIZES STOPS BYTES");
    };
    let folder = Path::new(folder);
    for size in sizes.split(',') {
        write_size(folder, size.parse().unwrap());
    }
    fs::write(folder.join("stops.exp"), hostile::stops(stops.parse().unwrap())).unwrap();
    for format in FORMATS {
        hostile::write(folder, format, bytes.parse().unwrap());
    }
}
