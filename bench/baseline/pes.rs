//! PES files: a signature, the offset of the PEC block, and the block.

use crate::design::Design;
use crate::pec::{read_block, write_block};
use crate::reading::{refuse, Loaded, ReadFault, SHORT, SIGNATURE};
use crate::writing::WriteFault;

pub fn decode(bytes: &[u8]) -> Result<Loaded, ReadFault> {
    if !bytes.starts_with(b"#PES") {
        return refuse(0, SIGNATURE);
    }
    if bytes.len() < 12 {
        return refuse(bytes.len(), SHORT);
    }
    let start = u32::from_le_bytes([bytes[8], bytes[9], bytes[10], bytes[11]]);
    read_block(bytes, start as usize)
}

pub fn encode(design: &Design) -> Result<Vec<u8>, WriteFault> {
    let mut beginning = b"#PES0001\x16".to_vec();
    beginning.resize(22, 0);
    write_block(design, beginning)
}
