//! What all writers share: the acts of a design become records, or the first refusal is named.

use crate::acts::{acts, Act, Kind};
use crate::design::{Command, Point, MAX_COMMANDS};

/// Why a design isn't written, and the number of the command at fault.
pub struct WriteFault {
    pub number: usize,
    pub text: String,
}

/// What a format can hold.
pub struct Limits {
    pub step: i32,
    pub stops: usize,
    /// The longest float in steps. Its third jump would read as a trim.
    pub float_steps: i32,
}

/// The records of one format.
pub trait Records {
    fn stitch(&mut self, dx: i32, dy: i32);
    fn jump(&mut self, dx: i32, dy: i32);
    fn trim(&mut self);
    fn stop(&mut self);
}

/// The fewest steps for a move.
pub fn steps(dx: i32, dy: i32, limit: i32) -> i32 {
    let distance = dx.abs().max(dy.abs());
    (distance + limit - 1) / limit
}

/// The point after the first `i` of `n` equal steps, rounded down.
pub fn part(i: i32, n: i32, d: i32) -> i32 {
    (i * d).div_euclid(n)
}

struct Writer<'a, R> {
    limits: &'a Limits,
    records: &'a mut R,
    place: Point,
    stops: usize,
    /// At most as many commands are read from what is written so far.
    room: usize,
}

pub fn write_acts<R: Records>(
    commands: &[Command],
    limits: &Limits,
    records: &mut R,
) -> Result<(), WriteFault> {
    let mut writer = Writer { limits, records, place: Point::default(), stops: 0, room: 0 };
    for (number, act) in acts(commands) {
        match act {
            Act::Needle { at, kind } => writer.needle(number, at, kind)?,
            Act::Trim => writer.trim(number)?,
            Act::Stop => writer.stop(number)?,
        }
    }
    Ok(())
}

impl<R: Records> Writer<'_, R> {
    fn needle(&mut self, number: usize, at: Point, kind: Kind) -> Result<(), WriteFault> {
        let (dx, dy) = (at.x - self.place.x, at.y - self.place.y);
        let hops = steps(dx, dy, self.limits.step);
        match kind {
            Kind::Sewn => {
                if hops > 1 {
                    let text = format!("stitch longer than {}", self.limits.step);
                    return Err(WriteFault { number, text });
                }
                self.take_room(number, 1)?;
                self.records.stitch(dx, dy);
            }
            Kind::Loose => {
                let third_jump = if hops >= 3 { 1 } else { 0 };
                self.take_room(number, hops as usize + 1 + third_jump)?;
                self.travel(dx, dy, hops, hops);
            }
            Kind::Float => {
                if hops > self.limits.float_steps {
                    return Err(WriteFault { number, text: "float too long".to_string() });
                }
                let hops = hops.max(1);
                self.take_room(number, hops as usize + 1)?;
                let is_longest = hops == self.limits.float_steps;
                self.travel(dx, dy, hops, if is_longest { hops - 1 } else { hops });
            }
        }
        self.place = at;
        Ok(())
    }

    /// The first `jumps` of the hops of a move, then a stitch by the rest.
    fn travel(&mut self, dx: i32, dy: i32, hops: i32, jumps: i32) {
        let (mut x, mut y) = (0, 0);
        for i in 1..=jumps {
            let (next_x, next_y) = (part(i, hops, dx), part(i, hops, dy));
            self.records.jump(next_x - x, next_y - y);
            (x, y) = (next_x, next_y);
        }
        self.records.stitch(dx - x, dy - y);
    }

    fn trim(&mut self, number: usize) -> Result<(), WriteFault> {
        self.take_room(number, 4)?;
        self.records.trim();
        Ok(())
    }

    fn stop(&mut self, number: usize) -> Result<(), WriteFault> {
        if self.stops == self.limits.stops {
            return Err(WriteFault { number, text: "too many stops".to_string() });
        }
        self.stops += 1;
        self.take_room(number, 1)?;
        self.records.stop();
        Ok(())
    }

    fn take_room(&mut self, number: usize, room: usize) -> Result<(), WriteFault> {
        self.room += room;
        if self.room > MAX_COMMANDS {
            let text = format!("more than {MAX_COMMANDS} commands written");
            return Err(WriteFault { number, text });
        }
        Ok(())
    }
}
