//! The log in parts: where a part may end, and what a call takes and carries.

use reference::program::join;
use reference::record::with_length;
use reference::table::{self, record, scanning};
use reference::Point;

use super::pieces;
use crate::{Case, InParts};

/// The cases.
pub fn all() -> Vec<InParts> {
    [first(), torn_or_impossible(), larger()].concat()
}

/// Those that have the first numbers.
pub fn first() -> Vec<InParts> {
    [whole_records(), carried_records(), endings()].concat()
}

/// A case in parts of these sizes.
fn in_parts(sizes: &[usize], case: Case) -> InParts {
    let sizes = sizes.to_vec();
    InParts { case, sizes }
}

/// A record of 9 bytes.
fn nothing(snapshot: u32) -> Vec<u8> {
    record(snapshot, &[]).to_bytes()
}

/// A record of 22 bytes.
fn put(snapshot: u32) -> Vec<u8> {
    record(snapshot, &[Point::put(10, 100)]).to_bytes()
}

/// Where the parts end between records, or nowhere.
fn whole_records() -> Vec<InParts> {
    vec![
        in_parts(
            &[9, 22],
            pieces(
                "parts-one-a-record",
                "A record that lies whole in its part carried, or kept waiting for the next part.",
                (3, 4),
                &[&nothing(0), &put(1)],
            ),
        ),
        in_parts(
            &[36, 4],
            pieces(
                "parts-two-records-and-a-bit",
                "The rest of a part lost after a verdict, or all its records decided in one call: a call \
                 takes one record, and what it leaves is lent again.",
                (3, 4),
                &[&nothing(0), &put(1), &nothing(2)],
            ),
        ),
        in_parts(
            &[0, 0, 1, 0, 0, 1, 0, 6, 0, 1, 0, 9, 0, 0],
            pieces(
                "parts-empty",
                "An empty part taken for the end, or for the loss of what is carried: before the log, \
                 within a length, within a record, between two and behind the last it asks for more.",
                (3, 4),
                &[&nothing(0), &nothing(1)],
            ),
        ),
    ]
}

/// Where the parts end within records.
fn carried_records() -> Vec<InParts> {
    let puts: Vec<Point> = (0..20).map(|key| Point::put(key, 1)).collect();
    let long = record(0, &puts).to_bytes();
    let most: Vec<Point> = (0..64).map(|key| Point::put(key, 1)).collect();
    let scans: Vec<(u32, u32)> = (0..8).map(|low| (low * 10, low * 10 + 5)).collect();
    let longest = scanning(0, &most, &scans).to_bytes();
    let read = record(0, &[Point::read(10)]).to_bytes();
    vec![
        in_parts(
            &[1],
            pieces(
                "parts-length-in-two",
                "A length whose two bytes lie in two parts read from one of them: it is 267, 01 and 0B.",
                (30, 4),
                &[&long, &nothing(1)],
            ),
        ),
        in_parts(
            &[1; 40],
            pieces(
                "parts-every-byte",
                "A byte lost, taken twice or decided on too early, where each comes alone.",
                (3, 4),
                &[&nothing(0), &put(1), &nothing(2)],
            ),
        ),
        in_parts(
            &[21, 1, 8, 1],
            pieces(
                "parts-last-byte-alone",
                "A record's last byte alone in its part: decided without it, or only with a byte behind it.",
                (3, 4),
                &[&put(0), &nothing(1)],
            ),
        ),
        in_parts(
            &[256; 4],
            pieces(
                "parts-pages-of-256",
                "A record of 905 bytes over four pages: a carry that is too small for it, or the page's \
                 rest behind it lost.",
                (100, 4),
                &[&nothing(0), &longest, &nothing(2)],
            ),
        ),
        in_parts(
            &[30, 10],
            pieces(
                "parts-looks",
                "The looks of a record that was carried told as 0: it has the verdict and the looks that \
                 it has in one piece.",
                (3, 4),
                &[&put(0), &read],
            ),
        ),
        in_parts(
            &[5, 22, 8],
            pieces(
                "parts-decided-once",
                "A carried record decided twice: the second record is ahead, s = 2 at p = 1, and would pass.",
                (3, 4),
                &[&put(0), &nothing(2), &nothing(2)],
            ),
        ),
        in_parts(
            &[4, 8],
            pieces(
                "parts-malformed",
                "A malformed record across parts taken for a torn log: it answers 4, takes its position, \
                 and the log goes on.",
                (3, 4),
                &[&with_length(&[9; 12]), &nothing(1)],
            ),
        ),
        in_parts(
            &[20; 11],
            Case {
                name: "parts-document".to_string(),
                catches: "The log to check by in parts of 20 bytes: its eleven verdicts, whatever it is cut into."
                    .to_string(),
                input: table::input(),
            },
        ),
    ]
}

/// How a log in parts ends.
fn endings() -> Vec<InParts> {
    let torn = &nothing(1)[..8];
    vec![
        in_parts(
            &[10, 21],
            pieces(
                "parts-end-with-a-part",
                "The end said with the last record, or not said: it is a call of its own, when the log is over.",
                (3, 4),
                &[&nothing(0), &put(1)],
            ),
        ),
        in_parts(
            &[12, 2],
            pieces(
                "parts-torn",
                "A torn record answered 10 before the log is over, or taken for the end: what is carried \
                 stays carried.",
                (3, 4),
                &[&nothing(0), torn],
            ),
        ),
        in_parts(
            &[9],
            pieces(
                "parts-one-byte-left",
                "A single carried byte taken for the end.",
                (3, 4),
                &[&nothing(0), &[0]],
            ),
        ),
        in_parts(
            &[10, 1, 9, 9],
            pieces(
                "parts-impossible-length",
                "11 said of 904 in two parts, which was impossible before there was version 2: its bytes are \
                 carried, and 10 is said when the log is over.",
                (3, 4),
                &[&nothing(0), &[3, 0x88], &nothing(1), &nothing(2)],
            ),
        ),
        in_parts(
            &[],
            pieces(
                "parts-impossible-behind",
                "An impossible length behind a record of the same part: two bytes are taken and no more, \
                 although more are there.",
                (3, 4),
                &[&nothing(0), &[0, 6], &nothing(1)],
            ),
        ),
        in_parts(
            &[4, 100, 7, 0],
            pieces(
                "parts-past-the-end",
                "A size past the log's end, and parts behind it: they are empty.",
                (3, 4),
                &[&nothing(0), &nothing(1)],
            ),
        ),
        in_parts(
            &[3, 3],
            Case {
                name: "parts-limits".to_string(),
                catches: "Limits not looked at: `9` is the only line.".to_string(),
                input: join(0, 4, &nothing(0)),
            },
        ),
    ]
}

/// A torn log, 10 when it is over, told from an impossible length, 11 at once.
pub fn torn_or_impossible() -> Vec<InParts> {
    let full = with_length(&[1; 903]);
    vec![
        in_parts(
            &[],
            pieces(
                "parts-impossible-past-the-end",
                "11 said of 904 with too few bytes behind it, as before there was version 2: `more`, then 10.",
                (3, 4),
                &[&nothing(0), &[3, 0x88], &nothing(1)],
            ),
        ),
        in_parts(
            &[10, 1, 0, 0],
            pieces(
                "parts-impossible-last",
                "An impossible length whose second byte is the log's last kept for the end, or told as torn: it \
                 is 11 before the log is said to be over.",
                (3, 4),
                &[&nothing(0), &[0, 6]],
            ),
        ),
        in_parts(
            &[10, 1, 5],
            pieces(
                "parts-erased",
                "11 said with the first of two bytes, since no length begins with FF: it is said with the second.",
                (3, 4),
                &[&nothing(0), &[0xFF; 20]],
            ),
        ),
        in_parts(
            &[9, 1, 0],
            pieces(
                "parts-one-byte-left-ff",
                "11 said of a single carried byte that no length begins with: when the log is over it is 10.",
                (3, 4),
                &[&nothing(0), &[0xFF]],
            ),
        ),
        in_parts(
            &[9, 2],
            pieces(
                "parts-length-alone",
                "11 or the end said of a carried length with nothing behind it: 903 is a length, and it is 10.",
                (3, 4),
                &[&nothing(0), &[3, 0x87]],
            ),
        ),
        in_parts(
            &[10, 1, 1],
            pieces(
                "parts-three-bytes-left",
                "11 or the end said of a record that stops behind its first byte: 10, with three bytes carried.",
                (3, 4),
                &[&nothing(0), &[0, 7, 1]],
            ),
        ),
        in_parts(
            &[256; 4],
            pieces(
                "parts-torn-903",
                "A record of 905 bytes short of its last one, over four pages: 10, with 904 bytes carried.",
                (3, 4),
                &[&full[..904]],
            ),
        ),
    ]
}

/// Records of version 2, and the lengths that came with it.
pub fn larger() -> Vec<InParts> {
    let reads: Vec<Point> = (1..=300).map(Point::read).collect();
    let puts: Vec<Point> = (1..=1_024).map(|key| Point::put(key, 1)).collect();
    let scans: Vec<(u32, u32)> = (1..=64).map(|low| (low * 10, low * 10 + 1)).collect();
    let longest = scanning(1, &puts, &scans).to_bytes();
    let ahead = record(1, &reads[..65]).to_bytes();
    vec![
        in_parts(
            &[9, 8, 1, 1, 1, 300, 25],
            pieces(
                "parts-version-2",
                "A record of version 2 cut between and within its counts: they are 00 41 and 00 00.",
                (3, 4),
                &[&nothing(0), &ahead, &nothing(2)],
            ),
        ),
        in_parts(
            &[512; 4],
            pieces(
                "parts-version-2-carry-of-905",
                "A carry of 905 bytes, or a record of 1,511 bytes decided at 905: it is carried over three pages, and \
                 what follows is decided behind it.",
                (3, 4),
                &[&put(0), &record(0, &reads).to_bytes(), &nothing(2)],
            ),
        ),
        in_parts(
            &[2_048; 7],
            pieces(
                "parts-version-2-longest",
                "A record of 13,835 bytes over seven pages of 2,048: a carry that is too small for it. It finds \
                 no room, and takes its position.",
                (1_000, 4),
                &[&nothing(0), &longest, &nothing(2)],
            ),
        ),
        in_parts(
            &[2_048; 7],
            pieces(
                "parts-torn-13833",
                "A record of 13,835 bytes short of its last one, over seven pages: 10, with 13,834 bytes carried.",
                (3, 4),
                &[&longest[..13_834]],
            ),
        ),
        in_parts(
            &[10, 1, 9, 9],
            pieces(
                "parts-length-13834",
                "An impossible length in two parts said only at the end, or passed over: 11 is said with its \
                 second byte, and nothing after it.",
                (3, 4),
                &[&nothing(0), &[0x36, 0x0A], &nothing(1), &nothing(2)],
            ),
        ),
        in_parts(
            &[],
            pieces(
                "parts-length-13834-past-the-end",
                "10 or `more` said of an impossible length because too few bytes are behind it: it is 11.",
                (3, 4),
                &[&nothing(0), &[0x36, 0x0A], &nothing(1)],
            ),
        ),
        in_parts(
            &[9, 2],
            pieces(
                "parts-length-13833-alone",
                "11 or the end said of a carried length with nothing behind it: 13,833 is a length, and it is 10.",
                (3, 4),
                &[&nothing(0), &[0x36, 0x09]],
            ),
        ),
    ]
}
