//! The stitch list: a text with a line for each act.

use crate::acts::{acts, Act, Kind};
use crate::design::{Command, Design, Point, MAX_COMMANDS, NEEDLE_REACH};
use crate::reading::{refuse, Loaded, ReadFault, CONTROL, RANGE, SHORT, SIGNATURE, TOO_MANY};
use crate::writing::{steps, Limits, WriteFault};

pub const LIMITS: Limits = Limits { step: 2047, stops: 254, float_steps: i32::MAX };

const LONGEST_LINE: usize = 32;
const LONGEST_LABEL: usize = 16;

/// A number of a line, or one that is beyond any range.
#[derive(Clone, Copy)]
enum Number {
    Value(i32),
    Far,
}

enum Line {
    Block(u8),
    Needle { x: Number, y: Number, float: bool },
    Trim,
    End,
}

fn number(word: &[u8]) -> Option<Number> {
    let digits = word.strip_prefix(b"-").unwrap_or(word);
    let is_plain = match digits {
        [] => false,
        [b'0'] => digits.len() == word.len(),
        [first, ..] => *first != b'0' && digits.iter().all(u8::is_ascii_digit),
    };
    if !is_plain {
        return None;
    }
    if digits.len() > 9 {
        return Some(Number::Far);
    }
    let size = digits.iter().fold(0, |size, digit| size * 10 + (digit - b'0') as i32);
    Some(Number::Value(if digits.len() == word.len() { size } else { -size }))
}

fn line_of(line: &[u8]) -> Option<Line> {
    if line.len() > LONGEST_LINE {
        return None;
    }
    let mut words = line.split(|byte| *byte == b' ');
    let (first, second, third, more) = (words.next()?, words.next(), words.next(), words.next());
    match (first, second, third, more) {
        (b"needle", Some(x), Some(y), None) => {
            Some(Line::Needle { x: number(x)?, y: number(y)?, float: false })
        }
        (b"float", Some(x), Some(y), None) => {
            Some(Line::Needle { x: number(x)?, y: number(y)?, float: true })
        }
        (b"block", Some(thread), None, None) => match number(thread)? {
            Number::Value(thread) => u8::try_from(thread).ok().map(Line::Block),
            Number::Far => None,
        },
        (b"trim", None, None, None) => Some(Line::Trim),
        (b"end", None, None, None) => Some(Line::End),
        _ => None,
    }
}

fn label(line: &[u8]) -> Option<String> {
    let text = line.strip_prefix(b"label [")?.strip_suffix(b"]")?;
    let is_label = text.len() <= LONGEST_LABEL
        && text.iter().all(|byte| (0x20..=0x7E).contains(byte))
        && text.last() != Some(&b' ');
    is_label.then(|| text.iter().map(|&byte| byte as char).collect())
}

/// The state after the acts so far.
#[derive(Default)]
struct Draft {
    design: Design,
    place: Point,
    sewn_on: bool,
    stops: usize,
    room: usize,
}

impl Draft {
    fn take_room(&mut self, at: usize, room: usize) -> Result<(), ReadFault> {
        if self.room + room > MAX_COMMANDS {
            return refuse(at, TOO_MANY);
        }
        self.room += room;
        Ok(())
    }

    fn needle(&mut self, offset: usize, x: Number, y: Number, float: bool) -> Result<(), ReadFault> {
        let (Number::Value(x), Number::Value(y)) = (x, y) else {
            return refuse(offset, RANGE);
        };
        let at = Point { x, y };
        if !at.is_within(NEEDLE_REACH) {
            return refuse(offset, RANGE);
        }
        if float && !self.sewn_on {
            return refuse(offset, CONTROL);
        }
        let hops = steps(x - self.place.x, y - self.place.y, LIMITS.step);
        if self.sewn_on && !float {
            if hops > 1 {
                return refuse(offset, CONTROL);
            }
            self.take_room(offset, 1)?;
        } else if float {
            self.take_room(offset, hops.max(1) as usize + 1)?;
            self.design.commands.push(Command::Jump(at));
        } else {
            self.take_room(offset, hops as usize + 1 + (hops >= 3) as usize)?;
        }
        self.design.commands.push(Command::Stitch(at));
        (self.place, self.sewn_on) = (at, true);
        Ok(())
    }

    fn trim(&mut self, offset: usize) -> Result<(), ReadFault> {
        if !self.sewn_on {
            return refuse(offset, CONTROL);
        }
        self.take_room(offset, 4)?;
        self.design.commands.push(Command::Trim);
        self.sewn_on = false;
        Ok(())
    }

    fn block(&mut self, offset: usize, thread: u8) -> Result<(), ReadFault> {
        if self.stops == LIMITS.stops {
            return refuse(offset, CONTROL);
        }
        self.take_room(offset, 1)?;
        self.stops += 1;
        self.design.commands.push(Command::Stop);
        self.design.threads.push(thread);
        self.sewn_on = false;
        Ok(())
    }
}

/// The line at an offset, without its end, and the offset after it.
fn next_line(bytes: &[u8], at: usize) -> Result<(&[u8], usize), ReadFault> {
    match bytes[at..].iter().position(|byte| *byte == b'\n') {
        Some(length) => Ok((&bytes[at..at + length], at + length + 1)),
        None => refuse(bytes.len(), SHORT),
    }
}

pub fn decode(bytes: &[u8]) -> Result<Loaded, ReadFault> {
    let (first, second_at) = next_line(bytes, 0)?;
    if first != b"stitch-list 1" {
        return refuse(0, SIGNATURE);
    }
    let (second, third_at) = next_line(bytes, second_at)?;
    let mut draft = Draft::default();
    match label(second) {
        Some(label) => draft.design.label = label,
        None => return refuse(second_at, CONTROL),
    }
    let (third, mut at) = next_line(bytes, third_at)?;
    match line_of(third) {
        Some(Line::Block(thread)) => draft.design.threads.push(thread),
        _ => return refuse(third_at, CONTROL),
    }
    draft.design.commands.reserve((bytes.len() / 8).min(MAX_COMMANDS));
    loop {
        let (line, behind) = next_line(bytes, at)?;
        match line_of(line) {
            Some(Line::Needle { x, y, float }) => draft.needle(at, x, y, float)?,
            Some(Line::Trim) => draft.trim(at)?,
            Some(Line::Block(thread)) => draft.block(at, thread)?,
            Some(Line::End) if behind == bytes.len() => {
                return Ok(Loaded { design: draft.design, ended: true });
            }
            Some(Line::End) => return refuse(behind, CONTROL),
            None => return refuse(at, CONTROL),
        }
        at = behind;
    }
}

fn put_number(bytes: &mut Vec<u8>, number: i32) {
    let mut digits = [0; 10];
    let mut at = digits.len();
    let mut left = number.unsigned_abs();
    loop {
        at -= 1;
        digits[at] = b'0' + (left % 10) as u8;
        left /= 10;
        if left == 0 {
            break;
        }
    }
    if number < 0 {
        bytes.push(b'-');
    }
    bytes.extend_from_slice(&digits[at..]);
}

fn put_needle(bytes: &mut Vec<u8>, word: &[u8], at: Point) {
    bytes.extend_from_slice(word);
    put_number(bytes, at.x);
    bytes.push(b' ');
    put_number(bytes, at.y);
    bytes.push(b'\n');
}

fn put_block(bytes: &mut Vec<u8>, thread: u8) {
    bytes.extend_from_slice(b"block ");
    put_number(bytes, thread as i32);
    bytes.push(b'\n');
}

pub fn encode(design: &Design) -> Result<Vec<u8>, WriteFault> {
    let mut bytes = Vec::new();
    bytes.extend_from_slice(b"stitch-list 1\nlabel [");
    bytes.extend_from_slice(design.label.as_bytes());
    bytes.extend_from_slice(b"]\n");
    put_block(&mut bytes, design.thread(0));
    let (mut place, mut stops, mut room) = (Point::default(), 0, 0);
    for (number, act) in acts(&design.commands) {
        match act {
            Act::Needle { at, kind } => {
                let hops = steps(at.x - place.x, at.y - place.y, LIMITS.step);
                if kind == Kind::Sewn && hops > 1 {
                    let text = format!("stitch longer than {}", LIMITS.step);
                    return Err(WriteFault { number, text });
                }
                room += match kind {
                    Kind::Sewn => 1,
                    Kind::Loose => hops as usize + 1 + (hops >= 3) as usize,
                    Kind::Float => hops.max(1) as usize + 1,
                };
                put_needle(&mut bytes, if kind == Kind::Float { b"float " } else { b"needle " }, at);
                place = at;
            }
            Act::Trim => {
                room += 4;
                bytes.extend_from_slice(b"trim\n");
            }
            Act::Stop => {
                if stops == LIMITS.stops {
                    return Err(WriteFault { number, text: "too many stops".to_string() });
                }
                stops += 1;
                room += 1;
                put_block(&mut bytes, design.thread(stops));
            }
        }
        if room > MAX_COMMANDS {
            let text = format!("more than {MAX_COMMANDS} commands written");
            return Err(WriteFault { number, text });
        }
    }
    bytes.extend_from_slice(b"end\n");
    Ok(bytes)
}
