//! What a machine does with a design's commands: needle penetrations, trims and stops.

use crate::design::{Command, Point};

#[derive(Clone, Copy)]
pub enum Act {
    Needle { at: Point, kind: Kind },
    Trim,
    Stop,
}

/// How the thread lies before a needle.
#[derive(Clone, Copy, PartialEq, Eq)]
pub enum Kind {
    /// The thread was cut, or nothing was sewn yet.
    Loose,
    /// The thread floats over a jump.
    Float,
    Sewn,
}

/// The acts of a list of commands, each with its command's number from 1.
pub struct Acts<'a> {
    commands: &'a [Command],
    index: usize,
    loose: bool,
    jumped: bool,
}

pub fn acts(commands: &[Command]) -> Acts<'_> {
    Acts { commands, index: 0, loose: true, jumped: false }
}

impl Acts<'_> {
    fn needle(&mut self, at: Point) -> Act {
        let kind = match (self.loose, self.jumped) {
            (true, _) => Kind::Loose,
            (false, true) => Kind::Float,
            (false, false) => Kind::Sewn,
        };
        self.loose = false;
        self.jumped = false;
        Act::Needle { at, kind }
    }

    fn release(&mut self) {
        self.loose = true;
        self.jumped = false;
    }
}

impl Iterator for Acts<'_> {
    type Item = (usize, Act);

    fn next(&mut self) -> Option<(usize, Act)> {
        while let Some(&command) = self.commands.get(self.index) {
            self.index += 1;
            match command {
                Command::Stitch(at) => return Some((self.index, self.needle(at))),
                Command::Jump(_) => self.jumped = true,
                Command::Trim if self.loose => {}
                Command::Trim => {
                    self.release();
                    return Some((self.index, Act::Trim));
                }
                Command::Stop => {
                    self.release();
                    return Some((self.index, Act::Stop));
                }
            }
        }
        None
    }
}

#[derive(Default)]
pub struct Counts {
    pub needles: usize,
    pub trims: usize,
    pub stops: usize,
}

pub fn counts(commands: &[Command]) -> Counts {
    let mut counts = Counts::default();
    for (_, act) in acts(commands) {
        match act {
            Act::Needle { .. } => counts.needles += 1,
            Act::Trim => counts.trims += 1,
            Act::Stop => counts.stops += 1,
        }
    }
    counts
}

/// The least and greatest x and y of the needles.
#[derive(Clone, Copy)]
pub struct Extent {
    pub min: Point,
    pub max: Point,
}

impl Extent {
    pub fn with(self, at: Point) -> Extent {
        Extent {
            min: Point { x: self.min.x.min(at.x), y: self.min.y.min(at.y) },
            max: Point { x: self.max.x.max(at.x), y: self.max.y.max(at.y) },
        }
    }

    pub fn width(&self) -> i32 {
        self.max.x - self.min.x
    }

    pub fn height(&self) -> i32 {
        self.max.y - self.min.y
    }
}

pub fn extent(commands: &[Command]) -> Option<Extent> {
    let mut extent: Option<Extent> = None;
    for (_, act) in acts(commands) {
        if let Act::Needle { at, .. } = act {
            let so_far = extent.unwrap_or(Extent { min: at, max: at });
            extent = Some(so_far.with(at));
        }
    }
    extent
}
