//! Walking the log: its end, torn records and impossible lengths.

use reference::record::with_length;
use reference::table::record;
use reference::Point;

use super::pieces;
use crate::Case;

/// The cases.
pub fn all() -> Vec<Case> {
    let first = record(0, &[Point::put(10, 100)]).to_bytes();
    let nothing = record(0, &[]).to_bytes();
    let torn = &nothing[..8];
    let full = with_length(&[1; 903]);
    vec![
        pieces(
            "log-empty",
            "A log of no bytes: it ends at once.",
            (3, 4),
            &[],
        ),
        pieces(
            "log-one-byte-left",
            "A single byte at the end not seen.",
            (3, 4),
            &[&first, &[0]],
        ),
        pieces(
            "log-length-and-nothing",
            "A length with nothing behind it.",
            (3, 4),
            &[&first, &[0, 7]],
        ),
        pieces(
            "log-torn",
            "A record short of one byte: answered 4, or taken for the end.",
            (3, 4),
            &[&first, torn],
        ),
        pieces(
            "log-length-0",
            "Length 0: a walk that stays in its place for ever.",
            (3, 4),
            &[&first, &[0, 0], &first],
        ),
        pieces(
            "log-length-6",
            "Length 6 handed out: it is impossible, whatever follows.",
            (3, 4),
            &[&first, &with_length(&[1, 0, 0, 0, 0, 0]), &first],
        ),
        pieces(
            "log-length-7",
            "Length 7 taken for impossible: it is the shortest that is handed out, well formed or not.",
            (3, 4),
            &[&with_length(&[9; 7]), &nothing],
        ),
        pieces(
            "log-length-903",
            "Length 903, the longest of version 1, taken for impossible: it is handed out, well formed or not.",
            (3, 4),
            &[&full, &record(1, &[]).to_bytes()],
        ),
        pieces(
            "log-length-903-torn",
            "Length 903 with 902 bytes behind it.",
            (3, 4),
            &[&full[..904]],
        ),
        pieces(
            "log-length-904",
            "Length 904 taken for impossible, as it was before there was version 2: it is handed out, and in \
             version 1 malformed.",
            (3, 4),
            &[&first, &with_length(&[1; 904]), &first],
        ),
        pieces(
            "log-malformed-goes-on",
            "A malformed record that ends the log: it answers 4 and the log goes on.",
            (3, 4),
            &[&with_length(&[9; 12]), &first, &nothing],
        ),
    ]
}

/// A torn log, 10, told from an impossible length, 11.
pub fn endings() -> Vec<Case> {
    let first = record(0, &[Point::put(10, 100)]).to_bytes();
    let malformed = with_length(&[9; 12]);
    let ahead = record(9, &[]).to_bytes();
    vec![
        pieces(
            "log-length-904-past-the-end",
            "11 said of 904 with too few bytes behind it, as before there was version 2: the log is torn.",
            (3, 4),
            &[&first, &[3, 0x88], &first],
        ),
        pieces(
            "log-length-6-short",
            "10 said of length 6 with five bytes behind it: a length below 7 is 11, one byte short or not.",
            (3, 4),
            &[&first, &[0, 6], &[1, 0, 0, 0, 0]],
        ),
        pieces(
            "log-length-6-alone",
            "10 said wherever only two bytes are left: these two are no length of a record, and that is 11.",
            (3, 4),
            &[&first, &[0, 6]],
        ),
        pieces(
            "log-length-0-alone",
            "Length 0 at the very end taken for the end, or for a record of no bytes, or answered 10.",
            (3, 4),
            &[&first, &[0, 0]],
        ),
        pieces(
            "log-length-65535",
            "Length 65,535, as erased flash has it, taken for the end, or answered 10 since it runs past it.",
            (3, 4),
            &[&first, &[0xFF; 20]],
        ),
        pieces(
            "log-length-903-alone",
            "11 said of a length because nothing is behind it: 903 can be, and the log merely stops.",
            (3, 4),
            &[&first, &[3, 0x87]],
        ),
        pieces(
            "log-three-bytes-left",
            "11 said of a record that runs past the end: 903 is a length, with one byte behind it.",
            (3, 4),
            &[&first, &[3, 0x87, 1]],
        ),
        pieces(
            "log-three-bytes-left-impossible",
            "11 said of 904 with one byte behind it, which was impossible before there was version 2: 10.",
            (3, 4),
            &[&first, &[3, 0x88, 1]],
        ),
        pieces(
            "log-one-byte-left-ff",
            "11 said of a single byte that no length begins with: fewer than two bytes left are always 10.",
            (3, 4),
            &[&first, &[0xFF]],
        ),
        pieces(
            "log-impossible-first",
            "11 said of 904 in front of all records, where it was impossible before there was version 2: the \
             log is torn, and 10 is the only line.",
            (3, 4),
            &[&[3, 0x88], &first],
        ),
        pieces(
            "log-impossible-behind-refusals",
            "An impossible length behind a malformed record and a refused one: they keep their lines.",
            (3, 4),
            &[&first, &malformed, &ahead, &[0, 0], &first],
        ),
    ]
}
