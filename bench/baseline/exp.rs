//! Melco EXP: units of two or four bytes, no header and no end. The file's y points upwards.

use crate::design::{Design, MAX_COMMANDS};
use crate::reading::{refuse, Loaded, ReadFault, Reader, CONTROL};
use crate::writing::{write_acts, Limits, Records, WriteFault};

pub const LIMITS: Limits = Limits { step: 127, stops: usize::MAX, float_steps: i32::MAX };

fn move_of(bytes: &[u8]) -> (i32, i32) {
    (bytes[0] as i8 as i32, -(bytes[1] as i8 as i32))
}

pub fn decode(bytes: &[u8]) -> Result<Loaded, ReadFault> {
    let mut reader = Reader::default();
    reader.design.commands.reserve((bytes.len() / 2).min(MAX_COMMANDS));
    loop {
        match &bytes[reader.at..] {
            [0x80, control, unit @ ..] if unit.len() >= 2 => {
                let (dx, dy) = move_of(unit);
                match control {
                    0x01 => reader.stop_and_move(dx, dy)?,
                    0x02 => reader.stitch(dx, dy)?,
                    0x04 => reader.jump(dx, dy)?,
                    0x80 => reader.trim()?,
                    _ => return refuse(reader.at, CONTROL),
                }
                reader.at += 4;
            }
            [first, _, ..] if *first != 0x80 => {
                let (dx, dy) = move_of(&bytes[reader.at..]);
                reader.stitch(dx, dy)?;
                reader.at += 2;
            }
            rest => {
                let ended = rest.is_empty();
                return Ok(reader.finish(ended));
            }
        }
    }
}

struct Writer {
    bytes: Vec<u8>,
}

impl Records for Writer {
    fn stitch(&mut self, dx: i32, dy: i32) {
        self.bytes.extend_from_slice(&[dx as u8, -dy as u8]);
    }

    fn jump(&mut self, dx: i32, dy: i32) {
        self.bytes.extend_from_slice(&[0x80, 0x04, dx as u8, -dy as u8]);
    }

    fn trim(&mut self) {
        self.bytes.extend_from_slice(&[0x80, 0x80, 0x07, 0x00]);
    }

    fn stop(&mut self) {
        self.bytes.extend_from_slice(&[0x80, 0x01, 0x00, 0x00]);
    }
}

pub fn encode(design: &Design) -> Result<Vec<u8>, WriteFault> {
    let mut writer = Writer { bytes: Vec::new() };
    write_acts(&design.commands, &LIMITS, &mut writer)?;
    Ok(writer.bytes)
}
