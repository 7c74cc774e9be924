//! Edits of a design in place.

use crate::design::{Command, Design, Point};

#[derive(Clone, Copy)]
pub enum Edit {
    Shift { dx: i32, dy: i32 },
    Turn { quarters: i32 },
    MirrorX,
    MirrorY,
    /// The block's number counts from 1.
    Thread { place: usize, thread: u8 },
}

/// Threads can be set for this many blocks.
const PLACES: usize = 255;

pub fn apply(design: &mut Design, edit: Edit) -> Result<(), String> {
    match edit {
        Edit::Shift { dx, dy } => return shift(design, dx, dy),
        Edit::Turn { quarters } => {
            for _ in 0..quarters {
                map_points(design, |at| Point { x: -at.y, y: at.x });
            }
        }
        Edit::MirrorX => map_points(design, |at| Point { x: -at.x, y: at.y }),
        Edit::MirrorY => map_points(design, |at| Point { x: at.x, y: -at.y }),
        Edit::Thread { place, thread } => return recolour(design, place, thread),
    }
    Ok(())
}

fn map_points(design: &mut Design, change: impl Fn(Point) -> Point) {
    for command in &mut design.commands {
        if let Command::Stitch(at) | Command::Jump(at) = command {
            *at = change(*at);
        }
    }
}

fn shift(design: &mut Design, dx: i32, dy: i32) -> Result<(), String> {
    map_points(design, |at| Point { x: at.x + dx, y: at.y + dy });
    match design.commands.iter().position(|command| !command.is_in_range()) {
        Some(index) => Err(format!("command {}: moved out of range", index + 1)),
        None => Ok(()),
    }
}

fn recolour(design: &mut Design, place: usize, thread: u8) -> Result<(), String> {
    let count = design.block_count().min(PLACES);
    if place > count {
        return Err(format!("no colour place {place}, there are {count}"));
    }
    while design.threads.len() < place {
        design.threads.push(design.thread(design.threads.len()));
    }
    design.threads[place - 1] = thread;
    Ok(())
}
