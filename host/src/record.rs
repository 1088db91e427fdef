//! Fault records as bytes.

use crate::fault::{Fault, Side};

impl Fault {
    /// The faults of a list of whole records. The list comes from the proved audit, so anything unexpected is a flaw of the archive.
    ///
    /// # Panics
    /// Where the bytes are not whole records of kinds 1 to 9 with positions 0 to 3 and sides 0 and 1.
    pub fn decode_list(mut bytes: &[u8]) -> Vec<Fault> {
        let mut faults = Vec::new();
        while !bytes.is_empty() {
            let Some((fault, length)) = decode(bytes) else {
                panic!("the proved audit wrote a record that is none: {:?}", &bytes[..bytes.len().min(6)]);
            };
            faults.push(fault);
            bytes = &bytes[length..];
        }
        faults
    }
}

/// The record at the start of `bytes`, and how long it is.
fn decode(bytes: &[u8]) -> Option<(Fault, usize)> {
    let &[kind, high, low, ref rest @ ..] = bytes else { return None };
    let face = u32::from(u16::from_be_bytes([high, low]));
    let cell = face;
    if face == 0 {
        return None;
    }
    Some(match kind {
        1 => (Fault::NodeCount { face }, 3),
        2 => (Fault::NodeOutside { face, position: position(rest)? }, 4),
        3 => (Fault::NodeTwice { face, position: position(rest)? }, 4),
        4 => (Fault::CellBeyond { face, side: side(rest)? }, 4),
        5 => (Fault::SameCell { face }, 3),
        6 => (Fault::InteriorOpen { face }, 3),
        7 => (Fault::NoCell { face }, 3),
        8 => (Fault::Element { cell }, 3),
        9 => (Fault::FaceCount { cell, count: count(rest)? }, 6),
        _ => return None,
    })
}

fn position(rest: &[u8]) -> Option<u8> {
    rest.first().copied().filter(|&position| position < 4)
}

fn side(rest: &[u8]) -> Option<Side> {
    match rest.first()? {
        0 => Some(Side::Right),
        1 => Some(Side::Left),
        _ => None,
    }
}

fn count(rest: &[u8]) -> Option<u32> {
    let &[high, middle, low, ..] = rest else { return None };
    Some(u32::from_be_bytes([0, high, middle, low]))
}

#[cfg(test)]
mod tests {
    use super::*;

    #[test]
    fn every_kind() {
        let list = [
            1, 0, 26, 2, 1, 2, 3, 3, 255, 255, 1, 4, 0, 3, 0, 4, 0, 3, 1, 5, 0, 1, 6, 0, 2, 7, 0, 3, 8, 0, 4, 9, 0, 5,
            1, 0, 2,
        ];
        let due = [
            Fault::NodeCount { face: 26 },
            Fault::NodeOutside { face: 258, position: 3 },
            Fault::NodeTwice { face: 65535, position: 1 },
            Fault::CellBeyond { face: 3, side: Side::Right },
            Fault::CellBeyond { face: 3, side: Side::Left },
            Fault::SameCell { face: 1 },
            Fault::InteriorOpen { face: 2 },
            Fault::NoCell { face: 3 },
            Fault::Element { cell: 4 },
            Fault::FaceCount { cell: 5, count: 65538 },
        ];
        assert_eq!(Fault::decode_list(&list), due);
        let kinds: Vec<u8> = due.iter().map(Fault::kind).collect();
        assert_eq!(kinds, [1, 2, 3, 4, 4, 5, 6, 7, 8, 9]);
    }

    #[test]
    fn anything_else_is_none() {
        let bad: [&[u8]; 9] = [
            &[0, 0, 1],
            &[10, 0, 1],
            &[1, 0],
            &[1, 0, 0],
            &[2, 0, 1],
            &[2, 0, 1, 4],
            &[4, 0, 1, 2],
            &[9, 0, 1, 0, 0],
            &[33, 0, 0, 1],
        ];
        for bytes in bad {
            assert_eq!(decode(bytes), None, "{bytes:?}");
        }
    }
}
