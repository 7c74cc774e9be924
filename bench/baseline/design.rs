//! Designs: a label, thread numbers and commands, with the limits that they keep.

pub const MAX_COMMANDS: usize = 1_000_000;
pub const NEEDLE_REACH: i32 = 30_000;
pub const JUMP_REACH: i32 = 32_767;

/// A point in tenths of a millimetre; x grows to the right and y downwards.
#[derive(Clone, Copy, Debug, Default, PartialEq, Eq)]
pub struct Point {
    pub x: i32,
    pub y: i32,
}

impl Point {
    pub fn is_within(self, reach: i32) -> bool {
        self.x.abs() <= reach && self.y.abs() <= reach
    }
}

#[derive(Clone, Copy, Debug, PartialEq, Eq)]
pub enum Command {
    Stitch(Point),
    Jump(Point),
    Trim,
    Stop,
}

impl Command {
    pub fn is_in_range(self) -> bool {
        match self {
            Command::Stitch(at) => at.is_within(NEEDLE_REACH),
            Command::Jump(at) => at.is_within(JUMP_REACH),
            Command::Trim | Command::Stop => true,
        }
    }
}

#[derive(Default)]
pub struct Design {
    pub label: String,
    pub threads: Vec<u8>,
    pub commands: Vec<Command>,
}

impl Design {
    /// The colour blocks: one more than there are stops.
    pub fn block_count(&self) -> usize {
        1 + self.commands.iter().filter(|&&command| command == Command::Stop).count()
    }

    /// The thread of a block that counts from 0.
    pub fn thread(&self, block: usize) -> u8 {
        match self.threads.get(block) {
            Some(&thread) => thread,
            None => 1 + (block % 64) as u8,
        }
    }
}
