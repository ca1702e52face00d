//! The stored table: part count, corner count, starts, corners, each 32 bits,
//! little-endian. Read: 7, 2, 22, 21. Written: 7, 2, 21 for too few bytes.

use crate::room::{self, Room, Size};
use crate::table::{self, Table};
use crate::Fault;

/// The table that the bytes hold, or the fault, before any question of room.
pub fn decode(bytes: &[u8]) -> Result<Table, Fault> {
    let words: Vec<[u8; 4]> = bytes
        .chunks_exact(4)
        .map(|w| [w[0], w[1], w[2], w[3]])
        .collect();
    if !bytes.len().is_multiple_of(4) || words.len() < 2 {
        return Err(7);
    }
    let parts = u128::from(u32::from_le_bytes(words[0]));
    let corners = u128::from(u32::from_le_bytes(words[1]));
    if bytes.len() as u128 != 8 + 4 * (parts + 1) + 8 * corners {
        return Err(7);
    }
    let (starts, flat) = words[2..].split_at(parts as usize + 1);
    let table = Table {
        starts: starts.iter().map(|&w| u32::from_le_bytes(w)).collect(),
        corners: flat.iter().map(|&w| i32::from_le_bytes(w)).collect(),
    };
    match table::fault(&table) {
        0 => Ok(table),
        fault => Err(fault),
    }
}

/// The stored form's bytes of any table.
pub fn encode(table: &Table) -> Vec<u8> {
    let head = [table.starts.len() as u32 - 1, table.corner_count() as u32];
    let words = head.iter().chain(&table.starts).map(|w| w.to_le_bytes());
    let corners = table.corners.iter().map(|v| v.to_le_bytes());
    words.chain(corners).flatten().collect()
}

/// The fault of reading the bytes into the room lent.
pub fn read_fault(bytes: &[u8], lent: Room) -> Fault {
    match decode(bytes) {
        Err(fault) => fault,
        Ok(table) => room::fault(
            Size {
                parts: table.parts(),
                corners: table.corner_count(),
            },
            lent,
        ),
    }
}

/// The fault of writing the table into so many bytes.
pub fn write_fault(table: &Table, bytes: usize) -> Fault {
    match table::fault(table) {
        0 if bytes < encode(table).len() => 21,
        fault => fault,
    }
}

#[cfg(test)]
mod tests {
    use super::*;

    #[test]
    fn a_table_is_read_back_as_written() {
        let table = Table::of(&[vec![(1, 2), (-3, 4)], vec![], vec![(5, 6)]]);
        let bytes = encode(&table);
        assert_eq!(bytes.len(), 8 + 4 * 4 + 8 * 3);
        assert_eq!(decode(&bytes), Ok(table.clone()));
        assert_eq!(decode(&bytes[..bytes.len() - 1]), Err(7));
        assert_eq!(decode(&bytes[..bytes.len() - 4]), Err(7));
        assert_eq!(write_fault(&table, bytes.len()), 0);
        assert_eq!(write_fault(&table, bytes.len() - 1), 21);
        let exact = Room {
            starts: 4,
            numbers: 6,
        };
        assert_eq!(read_fault(&bytes, exact), 0);
        assert_eq!(
            read_fault(
                &bytes,
                Room {
                    starts: 3,
                    numbers: 5
                }
            ),
            22
        );
        assert_eq!(
            read_fault(
                &bytes,
                Room {
                    starts: 4,
                    numbers: 5
                }
            ),
            21
        );
    }

    #[test]
    fn counts_that_would_wrap_the_length_are_refused() {
        let mut bytes = vec![0; 12];
        bytes[..4].copy_from_slice(&u32::MAX.to_le_bytes());
        assert_eq!(decode(&bytes), Err(7));
        bytes[..4].copy_from_slice(&0u32.to_le_bytes());
        bytes[4..8].copy_from_slice(&0x2000_0000u32.to_le_bytes());
        assert_eq!(decode(&bytes), Err(7));
        assert_eq!(decode(&[]), Err(7));
    }
}
