//! The part table: its rules and limits (7), and its coordinates (2).

use crate::limits::{in_range, CONTOUR, CORNERS, PARTS};
use crate::{first, Contour, Fault};

/// Starts, and corners as x, y in turn.
#[derive(Debug, Clone, PartialEq, Eq, Default)]
pub struct Table {
    pub starts: Vec<u32>,
    pub corners: Vec<i32>,
}

impl Table {
    /// The table form of a list of contours.
    pub fn of(contours: &[Contour]) -> Self {
        let mut starts = vec![0];
        let mut corners = Vec::new();
        for contour in contours {
            corners.extend(contour.iter().flat_map(|&(x, y)| [x, y]));
            starts.push(u32::try_from(corners.len() / 2).expect("a start fits 32 bits"));
        }
        Self { starts, corners }
    }

    /// The contours of a table that keeps its rules.
    pub fn contours(&self) -> Vec<Contour> {
        self.starts
            .windows(2)
            .map(|w| {
                let flat = &self.corners[2 * w[0] as usize..2 * w[1] as usize];
                flat.chunks(2).map(|p| (p[0], p[1])).collect()
            })
            .collect()
    }

    /// The part count of a table that keeps its rules.
    pub fn parts(&self) -> usize {
        self.starts.len() - 1
    }

    pub fn corner_count(&self) -> usize {
        self.corners.len() / 2
    }
}

/// 7 of contours that no limits bind, as those of a pair result.
pub fn breaks_starts(table: &Table) -> bool {
    let starts = &table.starts;
    starts.first() != Some(&0)
        || starts.windows(2).any(|w| w[1] < w[0])
        || starts.last().map(|&end| end as usize) != Some(table.corner_count())
        || !table.corners.len().is_multiple_of(2)
}

/// 7: against the rules or the limits.
pub fn breaks_rules(table: &Table) -> bool {
    let is_long = |w: &[u32]| (w[1] - w[0]) as usize > CONTOUR;
    breaks_starts(table)
        || table.parts() > PARTS
        || table.corner_count() > CORNERS
        || table.starts.windows(2).any(is_long)
}

/// 2, of the corners.
pub fn leaves_range(table: &Table) -> bool {
    !table.corners.iter().all(|&v| in_range(v))
}

/// 7, then 2.
pub fn fault(table: &Table) -> Fault {
    first(&[(7, &|| breaks_rules(table)), (2, &|| leaves_range(table))])
}
