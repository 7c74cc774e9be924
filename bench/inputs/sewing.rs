//! A design in the mix of a real one: runs of stitches in rows; between two runs a trim with a
//! travel, now and then a float; a colour stop every few thousand commands.

use crate::design::{Command, Design, Point};
use crate::random::Random;
use crate::writing::steps;

#[derive(Clone, Copy, PartialEq, Eq)]
pub enum Cloth {
    /// Each stitch and float fits into each format.
    Fitting,
    /// Some stitches and floats are too long for DST.
    Wide,
}

/// DST has the shortest stitches, so a design takes most room there.
const LIMIT: i32 = 121;
/// The most room that one run of `sew` takes.
const RUN_ROOM: usize = 1_500;
/// PEC and PES hold 254 stops.
const MAX_STOPS: usize = 250;
/// Runs begin within this distance of the middle, on each axis.
const FIELD: i32 = 1_500;
const DIRECTIONS: [(i32, i32); 8] =
    [(100, 0), (92, 38), (71, 71), (38, 92), (0, 100), (-38, 92), (-71, 71), (-92, 38)];

struct Machine {
    random: Random,
    cloth: Cloth,
    design: Design,
    place: Point,
    /// The commands that DST files of this design give after floats are cut, at most.
    room: usize,
    stops: usize,
    next_stop: usize,
}

/// A design whose commands number about `size` in DST, and at most that in each format, before
/// and after it is refitted.
pub fn sew(size: usize, cloth: Cloth) -> Design {
    let mut machine = Machine {
        random: Random::new(size as u64 + 7 * (cloth as u64 + 1)),
        cloth,
        design: Design { label: "bench".to_string(), threads: Vec::new(), commands: Vec::new() },
        place: Point::default(),
        room: 0,
        stops: 0,
        next_stop: 4_200,
    };
    let start = machine.somewhere();
    machine.land(start);
    while machine.room + RUN_ROOM < size {
        let stitches = machine.random.within(60, 400);
        machine.run(stitches);
        machine.leave();
    }
    let rest = size.saturating_sub(machine.room + 100) as i32;
    machine.run(if cloth == Cloth::Wide { rest / 4 } else { rest });
    machine.trim();
    machine.design.threads = (0..=machine.stops).map(|block| (7 * block % 64 + 1) as u8).collect();
    machine.design
}

impl Machine {
    fn somewhere(&mut self) -> Point {
        Point { x: self.random.within(-FIELD, FIELD), y: self.random.within(-FIELD, FIELD) }
    }

    /// A point within reach on each axis, rather towards the middle.
    fn near(&mut self, reach: i32) -> Point {
        Point {
            x: self.place.x - self.place.x.signum() * self.random.within(-reach / 3, reach),
            y: self.place.y - self.place.y.signum() * self.random.within(-reach / 3, reach),
        }
    }

    fn hops_to(&self, at: Point) -> usize {
        steps(at.x - self.place.x, at.y - self.place.y, LIMIT).max(1) as usize
    }

    fn sew_to(&mut self, at: Point) {
        self.room += self.hops_to(at);
        self.design.commands.push(Command::Stitch(at));
        self.place = at;
    }

    /// The first needle after the thread was cut.
    fn land(&mut self, at: Point) {
        self.room += self.hops_to(at) + 2;
        self.design.commands.push(Command::Stitch(at));
        self.place = at;
    }

    fn trim(&mut self) {
        self.room += 4;
        self.design.commands.push(Command::Trim);
    }

    /// A needle that the thread floats to, with the room of one that is cut.
    fn float(&mut self, at: Point) {
        self.design.commands.push(Command::Jump(at));
        self.room += 4;
        self.land(at);
    }

    fn stop(&mut self) {
        self.room += 1;
        self.stops += 1;
        self.next_stop = self.room + self.random.within(3_600, 5_200) as usize;
        self.design.commands.push(Command::Stop);
    }

    /// Goes from the end of a run to the begin of the next.
    fn leave(&mut self) {
        if self.room >= self.next_stop && self.stops < MAX_STOPS {
            self.trim();
            self.stop();
        } else if self.random.one_in(4) {
            let reach = if self.cloth == Cloth::Wide { 900 } else { 360 };
            let at = self.near(reach);
            return self.float(at);
        } else {
            self.trim();
        }
        let at = if self.random.one_in(3) { self.somewhere() } else { self.near(300) };
        self.land(at);
    }

    /// Rows of stitches there and back, each row beside the one before.
    fn run(&mut self, stitches: i32) {
        let (mut ux, mut uy) = DIRECTIONS[self.random.within(0, 7) as usize];
        let (side_x, side_y) = (-uy / 25, ux / 25);
        let row = self.random.within(8, 25);
        let mut left_in_row = row;
        for _ in 0..stitches {
            if left_in_row == 0 {
                (ux, uy) = (-ux, -uy);
                left_in_row = row;
                self.sew_to(Point { x: self.place.x + side_x, y: self.place.y + side_y });
            } else {
                left_in_row -= 1;
                let length = self.stitch_length();
                let (dx, dy) = (ux * length / 100, uy * length / 100);
                self.sew_to(Point { x: self.place.x + dx, y: self.place.y + dy });
            }
        }
    }

    fn stitch_length(&mut self) -> i32 {
        if self.cloth == Cloth::Wide && self.random.one_in(50) {
            self.random.within(130, 400)
        } else {
            self.random.within(10, 60)
        }
    }
}
