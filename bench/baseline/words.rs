//! The request in the arguments of the command line.

use crate::edits::Edit;
use crate::formats::Format;

/// A file's name and its format.
pub struct File<'a> {
    pub name: &'a str,
    pub format: Format,
}

pub enum Request<'a> {
    Show { file: File<'a> },
    Convert { input: File<'a>, output: File<'a>, split: bool, cut: bool },
    Edit { input: File<'a>, output: File<'a>, edits: Vec<Edit> },
    Hoop { file: File<'a>, width: i32, height: i32 },
}

pub fn request(words: &[String]) -> Option<Request<'_>> {
    let words: Vec<&str> = words.iter().map(String::as_str).collect();
    match words.as_slice() {
        ["show", name] => Some(Request::Show { file: file(name)? }),
        ["convert", input, output, flags @ ..] => convert(input, output, flags),
        ["edit", input, output, edits @ ..] if !edits.is_empty() => {
            let (input, output) = two_files(input, output)?;
            let edits = edits.iter().map(|word| edit(word)).collect::<Option<Vec<Edit>>>()?;
            Some(Request::Edit { input, output, edits })
        }
        ["hoop", name, width, height] => Some(Request::Hoop {
            file: file(name)?,
            width: number(width, 1, 60_000)?,
            height: number(height, 1, 60_000)?,
        }),
        _ => None,
    }
}

fn file(name: &str) -> Option<File<'_>> {
    if name.len() > 4096 {
        return None;
    }
    Some(File { name, format: Format::of_name(name)? })
}

fn two_files<'a>(input: &'a str, output: &'a str) -> Option<(File<'a>, File<'a>)> {
    if input == output {
        return None;
    }
    Some((file(input)?, file(output)?))
}

fn convert<'a>(input: &'a str, output: &'a str, flags: &[&str]) -> Option<Request<'a>> {
    let (input, output) = two_files(input, output)?;
    let (mut split, mut cut) = (false, false);
    for flag in flags {
        match *flag {
            "--split" if !split => split = true,
            "--cut" if !cut => cut = true,
            _ => return None,
        }
    }
    Some(Request::Convert { input, output, split, cut })
}

fn edit(word: &str) -> Option<Edit> {
    let (name, rest) = word.split_once('=')?;
    match name {
        "shift" => {
            let (dx, dy) = rest.split_once(',')?;
            Some(Edit::Shift { dx: number(dx, -60_000, 60_000)?, dy: number(dy, -60_000, 60_000)? })
        }
        "turn" => Some(Edit::Turn { quarters: number(rest, 0, 3)? }),
        "mirror" if rest == "x" => Some(Edit::MirrorX),
        "mirror" if rest == "y" => Some(Edit::MirrorY),
        "thread" => {
            let (place, thread) = rest.split_once(',')?;
            Some(Edit::Thread {
                place: number(place, 1, 255)? as usize,
                thread: number(thread, 0, 255)? as u8,
            })
        }
        _ => None,
    }
}

/// A number in a range, written as an optional minus and digits.
fn number(word: &str, least: i32, greatest: i32) -> Option<i32> {
    let digits = word.strip_prefix('-').unwrap_or(word);
    if digits.is_empty() || !digits.bytes().all(|byte| byte.is_ascii_digit()) {
        return None;
    }
    let number = word.parse::<i32>().ok()?;
    (least..=greatest).contains(&number).then_some(number)
}
