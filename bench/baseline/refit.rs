//! Designs made to fit a format: long stitches are split, floats are cut.

use crate::acts::{acts, Act, Kind};
use crate::design::{Command, Design, Point, MAX_COMMANDS};
use crate::writing::{part, steps};

#[derive(Clone, Copy, PartialEq, Eq)]
pub enum Mode {
    Split,
    Cut,
}

/// The refitted design, or the number of the command that makes it too long.
pub fn refit(design: &Design, limit: i32, mode: Mode) -> Result<Design, usize> {
    let mut commands = Vec::with_capacity(design.commands.len());
    let mut place = Point::default();
    for (number, act) in acts(&design.commands) {
        match act {
            Act::Needle { at, kind } => {
                push_needle(&mut commands, place, at, kind, limit, mode);
                place = at;
            }
            Act::Trim => commands.push(Command::Trim),
            Act::Stop => commands.push(Command::Stop),
        }
        if commands.len() > MAX_COMMANDS {
            return Err(number);
        }
    }
    Ok(Design { label: design.label.clone(), threads: design.threads.clone(), commands })
}

fn push_needle(
    commands: &mut Vec<Command>,
    from: Point,
    at: Point,
    kind: Kind,
    limit: i32,
    mode: Mode,
) {
    match (kind, mode) {
        (Kind::Sewn, Mode::Split) => push_split(commands, from, at, limit),
        (Kind::Float, Mode::Cut) => commands.extend([Command::Trim, Command::Stitch(at)]),
        (Kind::Float, Mode::Split) => commands.extend([Command::Jump(at), Command::Stitch(at)]),
        _ => commands.push(Command::Stitch(at)),
    }
}

fn push_split(commands: &mut Vec<Command>, from: Point, at: Point, limit: i32) {
    let (dx, dy) = (at.x - from.x, at.y - from.y);
    let count = steps(dx, dy, limit).max(1);
    for i in 1..=count {
        let x = from.x + part(i, count, dx);
        let y = from.y + part(i, count, dy);
        commands.push(Command::Stitch(Point { x, y }));
    }
}
