//! Tajima DST: a header of 512 bytes and records of three bytes. The file's y points upwards.

use crate::acts::{acts, Act, Extent};
use crate::design::{Design, Point, MAX_COMMANDS};
use crate::reading::{label_of, refuse, Loaded, ReadFault, Reader, SEQUIN, SHORT};
use crate::writing::{write_acts, Limits, Records, WriteFault};

pub const LIMITS: Limits = Limits { step: 121, stops: 999, float_steps: 3 };

const HEADER: usize = 512;

const fn bit(byte: usize, place: u32) -> i8 {
    (byte >> place & 1) as i8
}

/// What one byte of a record moves, in design axes.
type Move = (i8, i8);

/// The moves of the first or the second byte of a record: its parts are these, or three times these.
const fn lesser_moves(times: i8) -> [Move; 256] {
    let mut moves = [(0, 0); 256];
    let mut byte = 0;
    while byte < 256 {
        let dx = bit(byte, 0) - bit(byte, 1) + 9 * (bit(byte, 2) - bit(byte, 3));
        let up = bit(byte, 7) - bit(byte, 6) + 9 * (bit(byte, 5) - bit(byte, 4));
        moves[byte] = (times * dx, -times * up);
        byte += 1;
    }
    moves
}

const fn greatest_moves() -> [Move; 256] {
    let mut moves = [(0, 0); 256];
    let mut byte = 0;
    while byte < 256 {
        let dx = 81 * (bit(byte, 2) - bit(byte, 3));
        let up = 81 * (bit(byte, 5) - bit(byte, 4));
        moves[byte] = (dx, -up);
        byte += 1;
    }
    moves
}

static FIRST_MOVES: [Move; 256] = lesser_moves(1);
static SECOND_MOVES: [Move; 256] = lesser_moves(3);
static THIRD_MOVES: [Move; 256] = greatest_moves();

/// The move of a record, in design axes.
#[inline(always)]
fn read_move(record: &[u8; 3]) -> (i32, i32) {
    let [first, second, third] = *record;
    let a = FIRST_MOVES[first as usize];
    let b = SECOND_MOVES[second as usize];
    let c = THIRD_MOVES[third as usize];
    (
        a.0 as i32 + b.0 as i32 + c.0 as i32,
        a.1 as i32 + b.1 as i32 + c.1 as i32,
    )
}

/// The parts of a move: the size of each, the byte that holds it, its bit for plus and for minus.
type Parts = [(i32, usize, u8, u8); 5];

const X_PARTS: Parts = [
    (81, 2, 0x04, 0x08),
    (27, 1, 0x04, 0x08),
    (9, 0, 0x04, 0x08),
    (3, 1, 0x01, 0x02),
    (1, 0, 0x01, 0x02),
];
const Y_PARTS: Parts = [
    (81, 2, 0x10, 0x20),
    (27, 1, 0x10, 0x20),
    (9, 0, 0x10, 0x20),
    (3, 1, 0x40, 0x80),
    (1, 0, 0x40, 0x80),
];

/// The bits of each number from -121 to 121. The parts below one sum up to half of its size.
const fn spellings(parts: Parts) -> [[u8; 3]; 243] {
    let mut all = [[0; 3]; 243];
    let mut index = 0;
    while index < 243 {
        let mut rest = index as i32 - 121;
        let mut place = 0;
        while place < 5 {
            let (size, byte, plus, minus) = parts[place];
            if rest > size / 2 {
                all[index][byte] |= plus;
                rest -= size;
            } else if rest < -(size / 2) {
                all[index][byte] |= minus;
                rest += size;
            }
            place += 1;
        }
        index += 1;
    }
    all
}

static X_SPELLINGS: [[u8; 3]; 243] = spellings(X_PARTS);
static Y_SPELLINGS: [[u8; 3]; 243] = spellings(Y_PARTS);

pub fn decode(bytes: &[u8]) -> Result<Loaded, ReadFault> {
    if bytes.len() < HEADER {
        return refuse(bytes.len(), SHORT);
    }
    let mut reader = Reader::default();
    if bytes.starts_with(b"LA:") {
        reader.design.label = label_of(&bytes[3..19]);
    }
    let mut jumps_in_run = 0;
    let (records, _) = bytes[HEADER..].as_chunks::<3>();
    reader.design.commands.reserve(records.len().min(MAX_COMMANDS));
    for (index, record) in records.iter().enumerate() {
        reader.at = HEADER + 3 * index;
        let kind = record[2];
        let (dx, dy) = read_move(record);
        if kind & 0xF3 == 0xF3 {
            return Ok(reader.finish(true));
        } else if kind & 0xC3 == 0xC3 {
            jumps_in_run = 0;
            reader.stop_and_move(dx, dy)?;
        } else if kind & 0xC3 == 0x43 {
            return refuse(reader.at, SEQUIN);
        } else if kind & 0xC3 == 0x83 {
            jumps_in_run += 1;
            if jumps_in_run == 3 {
                reader.trim()?;
            }
            reader.jump(dx, dy)?;
        } else {
            jumps_in_run = 0;
            reader.stitch(dx, dy)?;
        }
    }
    Ok(reader.finish(false))
}

struct Writer {
    bytes: Vec<u8>,
}

impl Writer {
    fn record(&mut self, dx: i32, dy: i32, kind: u8) {
        let x = X_SPELLINGS[(dx + 121) as usize];
        let y = Y_SPELLINGS[(dy + 121) as usize];
        self.bytes.extend_from_slice(&[x[0] | y[0], x[1] | y[1], x[2] | y[2] | kind]);
    }
}

impl Records for Writer {
    fn stitch(&mut self, dx: i32, dy: i32) {
        self.record(dx, dy, 0x03);
    }

    fn jump(&mut self, dx: i32, dy: i32) {
        self.record(dx, dy, 0x83);
    }

    fn trim(&mut self) {
        self.jump(2, 2);
        self.jump(-4, -4);
        self.jump(2, 2);
    }

    fn stop(&mut self) {
        self.bytes.extend_from_slice(&[0x00, 0x00, 0xC3]);
    }
}

pub fn encode(design: &Design) -> Result<Vec<u8>, WriteFault> {
    let mut writer = Writer { bytes: vec![b' '; HEADER] };
    write_acts(&design.commands, &LIMITS, &mut writer)?;
    let mut bytes = writer.bytes;
    bytes.extend_from_slice(&[0x00, 0x00, 0xF3]);
    let header = header(design, (bytes.len() - HEADER) / 3);
    bytes[..header.len()].copy_from_slice(header.as_bytes());
    bytes[header.len()] = 0x1A;
    Ok(bytes)
}

fn header(design: &Design, records: usize) -> String {
    let Needles { reach, last } = needles(design);
    let text = format!("LA:{:<16}\rST:{:>7}\r", design.label, records);
    let mut text = text + &format!("CO:{:>3}\r", design.block_count() - 1);
    let reaches = [reach.max.x, -reach.min.x, -reach.min.y, reach.max.y];
    for (name, reach) in ["+X", "-X", "+Y", "-Y"].iter().zip(reaches) {
        text += &format!("{name}:{reach:>5}\r");
    }
    for (name, place) in [("AX", last.x), ("AY", -last.y), ("MX", 0), ("MY", 0)] {
        let sign = if place < 0 { '-' } else { '+' };
        text += &format!("{name}:{sign}{:>5}\r", place.abs());
    }
    text + "PD:******\r"
}

/// How far the needles reach from the origin, and the last of them.
struct Needles {
    reach: Extent,
    last: Point,
}

fn needles(design: &Design) -> Needles {
    let origin = Point::default();
    let mut needles = Needles { reach: Extent { min: origin, max: origin }, last: origin };
    for (_, act) in acts(&design.commands) {
        if let Act::Needle { at, .. } = act {
            needles.reach = needles.reach.with(at);
            needles.last = at;
        }
    }
    needles
}
