//! The mesh file: a header of five little-endian u32 (total bytes, triangle
//! count, offset of records, corner limit, split), then records of six i32 and
//! three u32. 13 and 1, then the mesh's own order.

use crate::limits::TRIANGLES;
use crate::mesh::{self, Triangle};
use crate::Fault;

#[derive(Debug, Clone, Copy, PartialEq, Eq)]
pub enum Split {
    Ear,
    Fan,
    Centroid,
}

impl Split {
    /// The split of a number, 0 ear, 1 fan, 2 centroid.
    pub fn numbered(number: u32) -> Option<Self> {
        match number {
            0 => Some(Self::Ear),
            1 => Some(Self::Fan),
            2 => Some(Self::Centroid),
            _ => None,
        }
    }
}

#[derive(Debug, Clone, PartialEq, Eq)]
pub struct MeshFile {
    pub limit: u32,
    pub split: Split,
    pub mesh: Vec<Triangle>,
}

const HEADER: usize = 20;
const RECORD: usize = 36;

/// The mesh that the bytes hold, or the fault.
pub fn decode(bytes: &[u8]) -> Result<MeshFile, Fault> {
    let words: Vec<u32> = bytes
        .chunks_exact(4)
        .map(|w| u32::from_le_bytes([w[0], w[1], w[2], w[3]]))
        .collect();
    if bytes.len() < HEADER {
        return Err(13);
    }
    let [total, count, offset, limit, split] = [words[0], words[1], words[2], words[3], words[4]];
    if count as usize > TRIANGLES {
        return Err(1);
    }
    let right = HEADER + RECORD * count as usize;
    let split = Split::numbered(split).ok_or(13u32)?;
    if offset as usize != HEADER || total as usize != right || bytes.len() != right {
        return Err(13);
    }
    let mesh: Vec<Triangle> = words[HEADER / 4..].chunks(RECORD / 4).map(record).collect();
    match mesh::fault(&mesh) {
        0 => Ok(MeshFile { limit, split, mesh }),
        fault => Err(fault),
    }
}

/// The file of a mesh.
pub fn encode(file: &MeshFile) -> Vec<u8> {
    let count = file.mesh.len() as u32;
    let split = match file.split {
        Split::Ear => 0,
        Split::Fan => 1,
        Split::Centroid => 2,
    };
    let total = HEADER as u32 + RECORD as u32 * count;
    let mut words = vec![total, count, HEADER as u32, file.limit, split];
    for triangle in &file.mesh {
        words.extend(
            triangle
                .points
                .iter()
                .flat_map(|&(x, y)| [x as u32, y as u32]),
        );
        words.extend(triangle.neighbours);
    }
    words.iter().flat_map(|w| w.to_le_bytes()).collect()
}

fn record(words: &[u32]) -> Triangle {
    let point = |i: usize| (words[2 * i] as i32, words[2 * i + 1] as i32);
    Triangle {
        points: [point(0), point(1), point(2)],
        neighbours: [words[6], words[7], words[8]],
    }
}

#[cfg(test)]
mod tests {
    use super::*;
    use crate::limits::NONE;

    fn dart() -> MeshFile {
        MeshFile {
            limit: 0,
            split: Split::Ear,
            mesh: vec![
                Triangle {
                    points: [(0, 0), (4, 0), (0, 4)],
                    neighbours: [1, NONE, NONE],
                },
                Triangle {
                    points: [(4, 0), (10, -2), (0, 4)],
                    neighbours: [NONE, 0, NONE],
                },
            ],
        }
    }

    #[test]
    fn a_file_is_read_back_as_written() {
        assert_eq!(decode(&encode(&dart())), Ok(dart()));
    }

    #[test]
    fn the_order_of_the_header() {
        let good = encode(&dart());
        let with = |at: usize, value: u32| {
            let mut bytes = good.clone();
            bytes[at..at + 4].copy_from_slice(&value.to_le_bytes());
            decode(&bytes).err()
        };
        assert_eq!(decode(&good[..19]), Err(13));
        assert_eq!(with(0, 0), Some(13));
        assert_eq!(with(4, 1025), Some(1));
        assert_eq!(with(4, 1), Some(13));
        assert_eq!(with(8, 24), Some(13));
        assert_eq!(with(12, u32::MAX), None);
        assert_eq!(with(16, 3), Some(13));
        assert_eq!(with(20, 1 << 30), Some(2));
        assert_eq!(decode(&good[..good.len() - 1]), Err(13));
        let mut both = good[..20].to_vec();
        both[4..8].copy_from_slice(&1025u32.to_le_bytes());
        both[16] = 9;
        assert_eq!(decode(&both), Err(1));
    }
}
