//! Stored tables and mesh files as bytes, good and damaged.

use crate::meshes;
use crate::operands;
use crate::pair_damage;
use crate::rng::Rng;
use judge::file::{self, MeshFile, Split};
use judge::stored;
use judge::table::Table;

/// A mesh file of a good mesh, with limits of every size and every split.
pub fn mesh_file(rng: &mut Rng, most: usize) -> MeshFile {
    MeshFile {
        limit: rng.pick(&[0, 1, 2, 3, 4, 5, 7, 10, 1_025, 1_026, u32::MAX]),
        split: rng.pick(&[Split::Ear, Split::Fan, Split::Centroid]),
        mesh: meshes::good(rng, most),
    }
}

/// The bytes of a mesh file with its header or its length damaged, and perhaps
/// its header once more.
pub fn damaged_file(rng: &mut Rng, good: &MeshFile) -> Vec<u8> {
    let mut bytes = file::encode(good);
    let kinds = [rng.below(7), 3 + rng.below(4)];
    for &kind in &kinds[..1 + rng.below(2)] {
        match kind {
            0 => bytes.truncate(rng.below(20)),
            1 => drop(bytes.pop()),
            2 => bytes.push(0),
            3 => put(&mut bytes, 0, rng.pick(&[0, 19, 20, 56, u32::MAX])),
            4 => put(&mut bytes, 1, rng.pick(&[1_025, 1_026, u32::MAX, 1_024])),
            5 => put(&mut bytes, 2, rng.pick(&[0, 19, 21, 24, u32::MAX])),
            _ => put(&mut bytes, 4, rng.pick(&[3, 4, 256, u32::MAX])),
        }
    }
    bytes
}

/// The bytes of a table, good, or with its rules, its range or its length
/// damaged.
pub fn table_bytes(rng: &mut Rng) -> Vec<u8> {
    let mut table = Table::of(&operands::parts(rng, 5, 6, 100));
    if rng.once_in(4) {
        while table.starts.is_empty() || judge::table::fault(&table) == 0 {
            table = Table::of(&operands::parts(rng, 5, 6, 100));
            pair_damage::break_rules(rng, &mut table);
        }
    }
    if !table.corners.is_empty() && rng.once_in(5) {
        let at = rng.below(table.corners.len());
        table.corners[at] = crate::coordinates::beyond(rng);
    }
    let mut bytes = stored::encode(&table);
    let way = rng.below(20);
    damage_table_bytes(rng, &mut bytes, way);
    bytes
}

/// The ways in which a stored table's length, or a count that it tells, is
/// damaged; a number past them does nothing.
pub const WAYS: usize = 6;

pub fn damage_table_bytes(rng: &mut Rng, bytes: &mut Vec<u8>, way: usize) {
    match way {
        0 => drop(bytes.pop()),
        1 => bytes.push(0),
        2 => bytes.extend([0; 4]),
        3 => bytes.truncate(rng.below(12)),
        4 => put(bytes, 0, rng.pick(&[2_049, 0x4000_0000, u32::MAX])),
        5 => put(bytes, 1, rng.pick(&[8_193, 0x2000_0000, u32::MAX])),
        _ => {}
    }
}

pub(crate) fn put(bytes: &mut [u8], word: usize, value: u32) {
    if let Some(place) = bytes.get_mut(4 * word..4 * word + 4) {
        place.copy_from_slice(&value.to_le_bytes());
    }
}

#[cfg(test)]
mod tests {
    use super::*;

    #[test]
    fn files_are_accepted_and_damaged_ones_refused() {
        let mut rng = Rng::new(61);
        let (mut ones, mut thirteens) = (0, 0);
        for _ in 0..400 {
            let good = mesh_file(&mut rng, 40);
            assert_eq!(file::decode(&file::encode(&good)), Ok(good.clone()));
            match file::decode(&damaged_file(&mut rng, &good)) {
                Err(1) => ones += 1,
                Err(13) => thirteens += 1,
                // A total or a count set to what it was is no damage.
                Ok(same) => assert_eq!(same, good),
                Err(other) => panic!("{other}"),
            }
        }
        assert!(ones > 20 && thirteens > 200);
    }

    #[test]
    fn tables_of_every_fate_occur() {
        let mut rng = Rng::new(62);
        let fates: Vec<u32> = (0..1_000)
            .map(|_| stored::decode(&table_bytes(&mut rng)).err().unwrap_or(0))
            .collect();
        for fate in [0, 7, 2] {
            assert!(fates.iter().filter(|&&f| f == fate).count() > 50);
        }
    }
}
