//! The five formats, by the ending of a name.

use crate::design::Design;
use crate::reading::{Loaded, ReadFault};
use crate::writing::{Limits, WriteFault};
use crate::{dst, exp, lst, pec, pes};

#[derive(Clone, Copy, PartialEq, Eq)]
pub enum Format {
    Dst,
    Exp,
    Pec,
    Pes,
    Lst,
}

impl Format {
    pub fn of_name(name: &str) -> Option<Format> {
        let (_, ending) = name.rsplit_once('.')?;
        match ending.to_ascii_lowercase().as_str() {
            "dst" => Some(Format::Dst),
            "exp" => Some(Format::Exp),
            "pec" => Some(Format::Pec),
            "pes" => Some(Format::Pes),
            "lst" => Some(Format::Lst),
            _ => None,
        }
    }

    pub fn ending(self) -> &'static str {
        match self {
            Format::Dst => "dst",
            Format::Exp => "exp",
            Format::Pec => "pec",
            Format::Pes => "pes",
            Format::Lst => "lst",
        }
    }

    pub fn limits(self) -> &'static Limits {
        match self {
            Format::Dst => &dst::LIMITS,
            Format::Exp => &exp::LIMITS,
            Format::Pec | Format::Pes => &pec::LIMITS,
            Format::Lst => &lst::LIMITS,
        }
    }

    pub fn decode(self, bytes: &[u8]) -> Result<Loaded, ReadFault> {
        match self {
            Format::Dst => dst::decode(bytes),
            Format::Exp => exp::decode(bytes),
            Format::Pec => pec::decode(bytes),
            Format::Pes => pes::decode(bytes),
            Format::Lst => lst::decode(bytes),
        }
    }

    pub fn encode(self, design: &Design) -> Result<Vec<u8>, WriteFault> {
        match self {
            Format::Dst => dst::encode(design),
            Format::Exp => exp::encode(design),
            Format::Pec => pec::encode(design),
            Format::Pes => pes::encode(design),
            Format::Lst => lst::encode(design),
        }
    }
}
