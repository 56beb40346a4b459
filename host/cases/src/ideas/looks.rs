//! The looks of the conflict search.

use reference::table::{record, scanning};
use reference::{Point, Record};

use super::melds;
use crate::Case;

fn puts(snapshot: u32, keys: &[u32]) -> Record {
    let points: Vec<Point> = keys.iter().map(|&key| Point::put(key, 1)).collect();
    record(snapshot, &points)
}

fn read(snapshot: u32, key: u32) -> Record {
    record(snapshot, &[Point::read(key)])
}

/// The cases.
pub fn all() -> Vec<Case> {
    let comb: Vec<u32> = (0..32).map(|bit| 1 << bit).collect();
    vec![
        melds(
            "looks-empty-tree",
            "A look at an empty tree: it takes 0, before any write and for any record.",
            (2, 4),
            &[
                record(0, &[]),
                read(0, 1),
                scanning(0, &[], &[(0, u32::MAX)]),
            ],
        ),
        melds(
            "looks-one-key",
            "A tree of one key: one look, whether it stops by newest, by cover or at the \
             conflict.",
            (1, 4),
            &[puts(0, &[5]), read(1, 5), read(0, 6), read(0, 5)],
        ),
        melds(
            "looks-before-the-writes",
            "Looks counted in the tree after the writes, or none for a record that only writes.",
            (4, 4),
            &[puts(0, &[1, 2]), puts(0, &[3]), puts(0, &[4])],
        ),
        melds(
            "looks-stops-count",
            "Nodes that are stopped at not counted: a root that is passed and two leaves that \
             stop are three looks, a root that stops is one.",
            (2, 4),
            &[puts(0, &[1, 2]), read(0, 3), read(0, 0), read(0, 7)],
        ),
        melds(
            "looks-cover-by-leading-bits",
            "An inner node covering only from its lowest to its highest key: 8 and 10 share the \
             bits of 8 to 11.",
            (2, 4),
            &[
                puts(0, &[8, 10]),
                read(0, 11),
                read(0, 12),
                read(0, 7),
                read(0, 9),
            ],
        ),
        melds(
            "looks-newest-at-s",
            "Newest = s not stopping: at 3 the left half has newest 1 = s, at 4 the root has \
             newest 2 = s.",
            (4, 4),
            &[
                puts(0, &[0, 1]),
                puts(1, &[8, 9]),
                scanning(1, &[], &[(0, 7)]),
                scanning(2, &[], &[(0, 9)]),
                scanning(1, &[], &[(0, 9)]),
            ],
        ),
        melds(
            "looks-left-first",
            "The right child first, or still looked at after a conflict on the left: both sides \
             conflict.",
            (4, 4),
            &[
                puts(0, &[0, 1, 8, 9]),
                scanning(0, &[], &[(0, 9)]),
                read(0, 9),
            ],
        ),
        melds(
            "looks-with-no-room",
            "Looks left out of answer 3: the search comes before.",
            (2, 4),
            &[
                puts(0, &[1, 2]),
                record(0, &[Point::read(3), Point::put(4, 1)]),
            ],
        ),
        melds(
            "looks-of-refusals",
            "Looks for answers 2, 4 and 5: the tree is not looked at.",
            (2, 1),
            &[
                puts(0, &[1, 2]),
                read(9, 1),
                read(0, 1),
                scanning(2, &[], &[(2, 1)]),
            ],
        ),
        melds(
            "looks-at-tombstones",
            "A leaf for a delete of an absent key: it keeps nothing, and the tree has the leaf of 1 \
             alone.",
            (4, 9),
            &[
                puts(0, &[1]),
                record(1, &[Point::delete(2)]),
                read(0, 3),
                read(0, 2),
            ],
        ),
        melds(
            "looks-after-a-drop",
            "An inner node for a key that is only deleted: at 5 the tree has 1, 5 and 9, and no node \
             for 1 and 2.",
            (3, 1),
            &[
                puts(0, &[1, 5]),
                record(1, &[Point::delete(2)]),
                record(2, &[]),
                puts(3, &[1, 9]),
                scanning(3, &[], &[(2, 3)]),
            ],
        ),
        melds(
            "looks-in-a-comb",
            "The deepest tree: a key for each bit. Reads of 0 and of 3 go down, a scan of \
             everything takes the first leaf.",
            (64, 9),
            &[
                puts(0, &comb),
                read(0, 0),
                read(0, 3),
                read(0, 0x8000_0001),
                scanning(0, &[], &[(0, u32::MAX)]),
            ],
        ),
    ]
}
