//! What all readers share: a needle that moves, and the refusals.

use crate::design::{Command, Design, Point, MAX_COMMANDS};

pub const SHORT: &str = "file too short";
pub const SIGNATURE: &str = "signature not known";
pub const SEQUIN: &str = "sequin";
pub const CONTROL: &str = "control code not known";
pub const RANGE: &str = "point out of range";
pub const TOO_MANY: &str = "more than 1000000 commands";

pub struct Loaded {
    pub design: Design,
    pub ended: bool,
}

/// Why a file isn't read, and the offset of the record at fault.
pub struct ReadFault {
    pub at: usize,
    pub text: &'static str,
}

pub fn refuse<T>(at: usize, text: &'static str) -> Result<T, ReadFault> {
    Err(ReadFault { at, text })
}

/// The design so far, the needle's position, and the offset of the record that is read.
#[derive(Default)]
pub struct Reader {
    pub design: Design,
    pub at: usize,
    place: Point,
}

impl Reader {
    pub fn stitch(&mut self, dx: i32, dy: i32) -> Result<(), ReadFault> {
        self.go(dx, dy);
        self.push(Command::Stitch(self.place))
    }

    pub fn jump(&mut self, dx: i32, dy: i32) -> Result<(), ReadFault> {
        self.go(dx, dy);
        self.push(Command::Jump(self.place))
    }

    pub fn trim(&mut self) -> Result<(), ReadFault> {
        self.push(Command::Trim)
    }

    pub fn stop(&mut self) -> Result<(), ReadFault> {
        self.push(Command::Stop)
    }

    /// A stop, then a jump where the stop's record moves.
    pub fn stop_and_move(&mut self, dx: i32, dy: i32) -> Result<(), ReadFault> {
        self.stop()?;
        if (dx, dy) == (0, 0) {
            return Ok(());
        }
        self.jump(dx, dy)
    }

    pub fn finish(self, ended: bool) -> Loaded {
        Loaded { design: self.design, ended }
    }

    fn go(&mut self, dx: i32, dy: i32) {
        self.place.x += dx;
        self.place.y += dy;
    }

    fn push(&mut self, command: Command) -> Result<(), ReadFault> {
        if !command.is_in_range() {
            return refuse(self.at, RANGE);
        }
        if self.design.commands.len() == MAX_COMMANDS {
            return refuse(self.at, TOO_MANY);
        }
        self.design.commands.push(command);
        Ok(())
    }
}

/// The text of a label's field: what isn't printable is `?`, and spaces at the end are dropped.
pub fn label_of(field: &[u8]) -> String {
    let text: String = field
        .iter()
        .map(|&byte| if (0x20..=0x7E).contains(&byte) { byte as char } else { '?' })
        .collect();
    text.trim_end_matches(' ').to_string()
}
