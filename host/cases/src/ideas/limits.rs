//! Limits and inputs too short for them.

use reference::program::join;
use reference::table::record;
use reference::Point;

use super::{case, melds};
use crate::Case;

/// The cases.
pub fn all() -> Vec<Case> {
    let log = [record(0, &[Point::put(10, 100)])];
    let rows = [
        ("limits-n-0", "N = 0 taken.", (0, 4)),
        ("limits-n-1", "N = 1 refused.", (1, 4)),
        ("limits-n-1000", "N = 1,000 refused.", (1_000, 4)),
        (
            "limits-n-1001",
            "N = 1,001 taken by the program.",
            (1_001, 4),
        ),
        ("limits-n-65537", "N beyond any pool taken.", (65_537, 4)),
        ("limits-z-0", "Z = 0 taken.", (3, 0)),
        ("limits-z-1", "Z = 1 refused.", (3, 1)),
        ("limits-z-4096", "Z = 4,096 refused.", (3, 4_096)),
        ("limits-z-4097", "Z = 4,097 taken.", (3, 4_097)),
        (
            "limits-little-endian",
            "N and Z read little-endian: here they are 50,331,648 and 67,108,864.",
            (3 << 24, 4 << 24),
        ),
    ];
    let mut cases: Vec<Case> = rows
        .iter()
        .map(|&(name, catches, limits)| melds(name, catches, limits, &log))
        .collect();
    cases.push(case("limits-missing", "No input at all.", vec![]));
    cases.push(case(
        "limits-short",
        "7 bytes of limits taken for an empty log.",
        join(3, 4, &[])[..7].to_vec(),
    ));
    cases
}
