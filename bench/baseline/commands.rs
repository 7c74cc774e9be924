//! The commands: each reads an entire file, and returns a report or a refusal.

use std::fmt::Write;
use std::fs;

use crate::acts::{acts, counts, extent, Act};
use crate::design::Design;
use crate::edits::{apply, Edit};
use crate::reading::Loaded;
use crate::refit::{refit, Mode};
use crate::words::{File, Request};
use crate::Failure;

const MAX_INPUT: usize = 64 * 1024 * 1024;

pub fn run(request: Request) -> Result<String, Failure> {
    match request {
        Request::Show { file } => show(&file),
        Request::Convert { input, output, split, cut } => convert(&input, &output, split, cut),
        Request::Edit { input, output, edits } => edit(&input, &output, &edits),
        Request::Hoop { file, width, height } => hoop(&file, width, height),
    }
}

fn load(file: &File) -> Result<Loaded, Failure> {
    let name = file.name;
    let bytes = fs::read(name).map_err(|_| Failure::Fault(format!("cannot read {name}")))?;
    if bytes.len() > MAX_INPUT {
        return Err(Failure::Refused(format!("{name}: longer than {MAX_INPUT} bytes")));
    }
    file.format
        .decode(&bytes)
        .map_err(|fault| Failure::Refused(format!("{name}: byte {}: {}", fault.at, fault.text)))
}

fn save(design: &Design, file: &File) -> Result<String, Failure> {
    let name = file.name;
    let bytes = file.format.encode(design).map_err(|fault| {
        Failure::Refused(format!("{name}: command {}: {}", fault.number, fault.text))
    })?;
    fs::write(name, bytes).map_err(|_| Failure::Fault(format!("cannot write {name}")))?;
    let counts = counts(&design.commands);
    Ok(format!("needles {} trims {} stops {}\n", counts.needles, counts.trims, counts.stops))
}

fn convert(input: &File, output: &File, split: bool, cut: bool) -> Result<String, Failure> {
    let mut design = load(input)?.design;
    for (asked, mode) in [(split, Mode::Split), (cut, Mode::Cut)] {
        if asked {
            design = refit(&design, output.format.limits().step, mode).map_err(|number| {
                Failure::Refused(format!("{}: command {number}: too many commands", output.name))
            })?;
        }
    }
    save(&design, output)
}

fn edit(input: &File, output: &File, edits: &[Edit]) -> Result<String, Failure> {
    let mut design = load(input)?.design;
    for &edit in edits {
        apply(&mut design, edit)
            .map_err(|text| Failure::Refused(format!("{}: {text}", input.name)))?;
    }
    save(&design, output)
}

fn hoop(file: &File, width: i32, height: i32) -> Result<String, Failure> {
    let design = load(file)?.design;
    let (w, h) = match extent(&design.commands) {
        Some(extent) => (extent.width(), extent.height()),
        None => (0, 0),
    };
    if w <= width && h <= height {
        Ok("fits upright\n".to_string())
    } else if w <= height && h <= width {
        Ok("fits turned\n".to_string())
    } else {
        let (over_x, over_y) = ((w - width).max(0), (h - height).max(0));
        Err(Failure::Refused(format!("too large by {over_x} {over_y}")))
    }
}

fn show(file: &File) -> Result<String, Failure> {
    let Loaded { design, ended } = load(file)?;
    let counts = counts(&design.commands);
    let mut report = format!(
        "format {}\nlabel [{}]\ncommands {}\nneedles {}\ntrims {}\nstops {}\n",
        file.format.ending(),
        design.label,
        design.commands.len(),
        counts.needles,
        counts.trims,
        counts.stops
    );
    match extent(&design.commands) {
        Some(e) => {
            let _ = writeln!(report, "extent {} {} {} {}", e.min.x, e.min.y, e.max.x, e.max.y);
        }
        None => report += "extent none\n",
    }
    report += if ended { "ended yes\n" } else { "ended no\n" };
    for (block, needles) in block_needles(&design).iter().enumerate() {
        let thread = design.thread(block);
        let _ = writeln!(report, "block {} thread {thread} needles {needles}", block + 1);
    }
    Ok(report)
}

/// The needles of each colour block.
fn block_needles(design: &Design) -> Vec<usize> {
    let mut blocks = vec![0];
    for (_, act) in acts(&design.commands) {
        match act {
            Act::Needle { .. } => *blocks.last_mut().unwrap() += 1,
            Act::Stop => blocks.push(0),
            Act::Trim => {}
        }
    }
    blocks
}
