//! The PEC block, which PEC and PES files share. Its y points downwards.

use crate::acts::extent;
use crate::design::{Design, MAX_COMMANDS};
use crate::reading::{label_of, refuse, Loaded, ReadFault, Reader, SHORT, SIGNATURE};
use crate::writing::{write_acts, Limits, Records, WriteFault};

pub const LIMITS: Limits = Limits { step: 2047, stops: 254, float_steps: i32::MAX };

/// Where the records begin, counted from the block's start.
const RECORDS: usize = 528;
/// Where the part begins from which the distance to the thumbnails counts.
const SEWING: usize = 512;
const THUMBNAIL: usize = 228;

const TRIM_MARK: u8 = 0x20;
const JUMP_MARK: u8 = 0x10;

pub fn decode(bytes: &[u8]) -> Result<Loaded, ReadFault> {
    if !bytes.starts_with(b"#PEC") {
        return refuse(0, SIGNATURE);
    }
    read_block(bytes, 8)
}

pub fn encode(design: &Design) -> Result<Vec<u8>, WriteFault> {
    write_block(design, b"#PEC0001".to_vec())
}

/// One coordinate of a record: its size in bytes, its number and its marks.
struct Coordinate {
    size: usize,
    number: i32,
    marks: u8,
}

fn coordinate(bytes: &[u8]) -> Option<Coordinate> {
    let first = *bytes.first()?;
    if first & 0x80 == 0 {
        let number = ((first << 1) as i8 >> 1) as i32;
        return Some(Coordinate { size: 1, number, marks: 0 });
    }
    let low = *bytes.get(1)?;
    let twelve = (first as i16 & 0x0F) << 8 | low as i16;
    let number = (twelve << 4 >> 4) as i32;
    Some(Coordinate { size: 2, number, marks: first & (TRIM_MARK | JUMP_MARK) })
}

/// Reads the block at an offset of the file.
pub fn read_block(bytes: &[u8], start: usize) -> Result<Loaded, ReadFault> {
    if bytes.len() < start + RECORDS {
        return refuse(bytes.len(), SHORT);
    }
    let block = &bytes[start..];
    let mut reader = Reader::default();
    if block.starts_with(b"LA:") {
        reader.design.label = label_of(&block[3..19]);
    }
    if block[48] != 255 {
        let count = block[48] as usize + 1;
        reader.design.threads = block[49..49 + count].to_vec();
    }
    reader.design.commands.reserve((block.len() / 2).min(MAX_COMMANDS));
    let ended = read_records(bytes, start + RECORDS, &mut reader)?;
    Ok(reader.finish(ended))
}

/// Reads records from an offset on, and returns whether the end was met.
fn read_records(bytes: &[u8], start: usize, reader: &mut Reader) -> Result<bool, ReadFault> {
    reader.at = start;
    loop {
        let rest = &bytes[reader.at..];
        if rest.first() == Some(&0xFF) {
            return Ok(true);
        }
        if rest.starts_with(&[0xFE, 0xB0]) {
            if rest.len() < 3 {
                return Ok(false);
            }
            reader.stop()?;
            reader.at += 3;
            continue;
        }
        let Some(x) = coordinate(rest) else { return Ok(false) };
        let Some(y) = coordinate(&rest[x.size..]) else { return Ok(false) };
        let marks = x.marks | y.marks;
        if marks & JUMP_MARK != 0 {
            reader.jump(x.number, y.number)?;
        } else if marks & TRIM_MARK != 0 {
            reader.trim()?;
            reader.jump(x.number, y.number)?;
        } else {
            reader.stitch(x.number, y.number)?;
        }
        reader.at += x.size + y.size;
    }
}

struct Writer {
    bytes: Vec<u8>,
    stops: usize,
}

impl Writer {
    fn long(&mut self, number: i32, mark: u8) {
        let high = (number >> 8) as u8 & 0x0F;
        self.bytes.extend_from_slice(&[0x80 | mark | high, number as u8]);
    }
}

impl Records for Writer {
    fn stitch(&mut self, dx: i32, dy: i32) {
        let short = -63..=62;
        if short.contains(&dx) && short.contains(&dy) {
            self.bytes.extend_from_slice(&[dx as u8 & 0x7F, dy as u8 & 0x7F]);
        } else {
            self.long(dx, 0);
            self.long(dy, 0);
        }
    }

    fn jump(&mut self, dx: i32, dy: i32) {
        self.long(dx, JUMP_MARK);
        self.long(dy, JUMP_MARK);
    }

    fn trim(&mut self) {
        self.bytes.extend_from_slice(&[0xA0, 0x00, 0xA0, 0x00]);
    }

    fn stop(&mut self) {
        self.stops += 1;
        let place = if self.stops % 2 == 1 { 2 } else { 1 };
        self.bytes.extend_from_slice(&[0xFE, 0xB0, place]);
    }
}

/// Adds the block with its thumbnails to a file that has its beginning.
pub fn write_block(design: &Design, beginning: Vec<u8>) -> Result<Vec<u8>, WriteFault> {
    let start = beginning.len();
    let mut writer = Writer { bytes: beginning, stops: 0 };
    writer.bytes.resize(start + RECORDS, b' ');
    write_acts(&design.commands, &LIMITS, &mut writer)?;
    let Writer { mut bytes, stops } = writer;
    bytes.push(0xFF);
    let distance = bytes.len() - start - SEWING;
    fill_header(design, stops + 1, distance, &mut bytes[start..start + RECORDS]);
    bytes.resize(bytes.len() + (stops + 2) * THUMBNAIL, 0);
    Ok(bytes)
}

fn fill_header(design: &Design, blocks: usize, distance: usize, header: &mut [u8]) {
    header[..19].copy_from_slice(format!("LA:{:<16}", design.label).as_bytes());
    header[19] = b'\r';
    header[32..36].copy_from_slice(&[0xFF, 0x00, 0x06, 0x26]);
    header[48] = (blocks - 1) as u8;
    for block in 0..blocks {
        header[49 + block] = design.thread(block);
    }
    header[512..514].copy_from_slice(&[0x00, 0x00]);
    header[514..517].copy_from_slice(&(distance as u32).to_le_bytes()[..3]);
    header[517..520].copy_from_slice(&[0x31, 0xFF, 0xF0]);
    let (width, height) = match extent(&design.commands) {
        Some(extent) => (extent.width() as u16, extent.height() as u16),
        None => (0, 0),
    };
    header[520..522].copy_from_slice(&width.to_le_bytes());
    header[522..524].copy_from_slice(&height.to_le_bytes());
    header[524..526].copy_from_slice(&480u16.to_le_bytes());
    header[526..528].copy_from_slice(&432u16.to_le_bytes());
}
