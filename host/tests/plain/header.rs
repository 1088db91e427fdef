//! Headers of the sections that are read, and their words.

use super::scan::{bad, Placed, Scan, Step, GRAMMAR};

#[derive(Clone, Copy, PartialEq, Eq, Default)]
pub enum Kind {
    #[default]
    Nodes,
    Faces,
    Cells,
}

impl Kind {
    pub fn of(id: u32) -> Option<Kind> {
        match id {
            10 => Some(Kind::Nodes),
            12 => Some(Kind::Cells),
            13 => Some(Kind::Faces),
            _ => None,
        }
    }

    pub fn id(self) -> u32 {
        match self {
            Kind::Nodes => 10,
            Kind::Cells => 12,
            Kind::Faces => 13,
        }
    }

    /// Whether a regular section may have this zone type.
    pub fn has_type(self, ztype: u32) -> bool {
        match self {
            Kind::Nodes => ztype <= 2,
            Kind::Cells => matches!(ztype, 0 | 1 | 32),
            Kind::Faces => {
                let base = if ztype >= 1000 { ztype - 1000 } else { ztype };
                matches!(base, 2..=5 | 7..=10 | 12 | 14 | 20 | 24 | 31 | 36 | 37)
            }
        }
    }

    /// Whether a header of this kind may have this fifth word.
    pub fn has_fifth(self, fifth: u32) -> bool {
        match self {
            Kind::Nodes => matches!(fifth, 2 | 3),
            Kind::Cells => fifth <= 6,
            Kind::Faces => matches!(fifth, 0 | 2..=4),
        }
    }
}

pub struct Header {
    pub zone: Placed,
    pub first: Placed,
    pub last: Placed,
    pub ztype: Placed,
    pub fifth: Option<Placed>,
    /// Offset of its closing parenthesis.
    pub end: usize,
}

/// Takes a header up to its closing parenthesis.
pub fn header(scan: &mut Scan, kind: Kind) -> Step<Header> {
    scan.mark(b'(')?;
    let zone = scan.number()?;
    let first = scan.number()?;
    let last = scan.number()?;
    let ztype = scan.number()?;
    let fifth = if scan.is(b')') { None } else { Some(scan.number()?) };
    let end = scan.mark(b')')?;
    if fifth.is_none() && zone.value > 0 && kind != Kind::Nodes {
        return bad(GRAMMAR, end);
    }
    Ok(Header { zone, first, last, ztype, fifth, end })
}
