//! House records as bytes: a kind byte, then its body, numbers little-endian.
//!
//! Only the form is read here. Which codes are in range and which record may
//! stand where is walk.rs's part.

use crate::faults::Fault;

/// One house record, its codes not yet tested.
#[derive(Copy, Clone, Debug, PartialEq, Eq)]
pub enum Record {
    Sheet {
        ranking: u8,
        stamp: u32,
    },
    Direct {
        origin: u8,
    },
    Group {
        origin: u8,
    },
    Rule,
    Step {
        combinator: u8,
    },
    Requirement {
        which: u8,
        id: u32,
    },
    Entry {
        property: u16,
        kind: u8,
        number: u32,
    },
    End,
    Item {
        which: u8,
        id: u32,
    },
    Enter {
        parent: u32,
    },
    Changed {
        old: u32,
        new: u32,
    },
    Winner {
        state: u32,
        property: u16,
    },
}

/// The widths in bytes of a record's numbers by its kind, or nothing for a
/// kind that is not known.
fn widths_of(kind: u8) -> Option<&'static [usize]> {
    Some(match kind {
        1 | 6 | 9 => &[1, 4],
        2 | 3 | 5 => &[1],
        4 | 8 => &[],
        7 => &[2, 1, 4],
        10 => &[4],
        11 => &[4, 4],
        12 => &[4, 2],
        _ => return None,
    })
}

fn length_of(kind: u8) -> Option<usize> {
    widths_of(kind).map(|widths| 1 + widths.iter().sum::<usize>())
}

/// The record at the start of these bytes and its length, or that its kind is
/// unknown or it is cut short.
pub fn read(bytes: &[u8]) -> Result<(Record, usize), Fault> {
    let kind = *bytes.first().ok_or(Fault::Cut)?;
    let length = length_of(kind).ok_or(Fault::Unknown)?;
    let record = bytes.get(..length).ok_or(Fault::Cut)?;
    let word = |at: usize| {
        u32::from_le_bytes([record[at], record[at + 1], record[at + 2], record[at + 3]])
    };
    let half = |at: usize| u16::from_le_bytes([record[at], record[at + 1]]);
    let read = match record[0] {
        1 => Record::Sheet {
            ranking: record[1],
            stamp: word(2),
        },
        2 => Record::Direct { origin: record[1] },
        3 => Record::Group { origin: record[1] },
        4 => Record::Rule,
        5 => Record::Step {
            combinator: record[1],
        },
        6 => Record::Requirement {
            which: record[1],
            id: word(2),
        },
        7 => Record::Entry {
            property: half(1),
            kind: record[3],
            number: word(4),
        },
        8 => Record::End,
        9 => Record::Item {
            which: record[1],
            id: word(2),
        },
        10 => Record::Enter { parent: word(1) },
        11 => Record::Changed {
            old: word(1),
            new: word(5),
        },
        12 => Record::Winner {
            state: word(1),
            property: half(5),
        },
        _ => return Err(Fault::Unknown),
    };
    Ok((read, length))
}

impl Record {
    /// Adds the record to the end of a file.
    pub fn write(self, file: &mut Vec<u8>) {
        match self {
            Self::Sheet { ranking, stamp } => {
                file.extend([1, ranking]);
                file.extend(stamp.to_le_bytes());
            }
            Self::Direct { origin } => file.extend([2, origin]),
            Self::Group { origin } => file.extend([3, origin]),
            Self::Rule => file.push(4),
            Self::Step { combinator } => file.extend([5, combinator]),
            Self::Requirement { which, id } => {
                file.extend([6, which]);
                file.extend(id.to_le_bytes());
            }
            Self::Entry {
                property,
                kind,
                number,
            } => {
                file.push(7);
                file.extend(property.to_le_bytes());
                file.push(kind);
                file.extend(number.to_le_bytes());
            }
            Self::End => file.push(8),
            Self::Item { which, id } => {
                file.extend([9, which]);
                file.extend(id.to_le_bytes());
            }
            Self::Enter { parent } => {
                file.push(10);
                file.extend(parent.to_le_bytes());
            }
            Self::Changed { old, new } => {
                file.push(11);
                file.extend(old.to_le_bytes());
                file.extend(new.to_le_bytes());
            }
            Self::Winner { state, property } => {
                file.push(12);
                file.extend(state.to_le_bytes());
                file.extend(property.to_le_bytes());
            }
        }
    }
}

/// The bytes of a file of these records.
pub fn file_of(records: &[Record]) -> Vec<u8> {
    let mut file = Vec::new();
    for record in records {
        record.write(&mut file);
    }
    file
}

/// A file cut into its records; from the first that cannot be read, the rest
/// is one piece.
pub fn pieces(file: &[u8]) -> Vec<&[u8]> {
    let mut pieces = Vec::new();
    let mut rest = file;
    while !rest.is_empty() {
        let length = read(rest).map_or(rest.len(), |(_, length)| length);
        let (piece, after) = rest.split_at(length);
        pieces.push(piece);
        rest = after;
    }
    pieces
}

/// The numbers of a record that is whole; of anything else none.
pub fn numbers_of(piece: &[u8]) -> Vec<u32> {
    let Some((&kind, mut body)) = piece.split_first() else {
        return Vec::new();
    };
    let mut numbers = Vec::new();
    for &width in widths_of(kind).unwrap_or(&[]) {
        let Some((number, rest)) = body.split_at_checked(width) else {
            return Vec::new();
        };
        let bytes = number.iter().rev();
        numbers.push(bytes.fold(0, |high, &byte| high << 8 | u32::from(byte)));
        body = rest;
    }
    numbers
}

/// A record of the same kind with other numbers, as many as it has.
pub fn with_numbers(piece: &[u8], numbers: &[u32]) -> Vec<u8> {
    let mut record = vec![piece[0]];
    for (&width, number) in widths_of(piece[0]).unwrap_or(&[]).iter().zip(numbers) {
        record.extend(&number.to_le_bytes()[..width]);
    }
    record
}
