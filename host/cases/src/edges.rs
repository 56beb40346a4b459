//! Further cases for the gate: mechanical ones, and ones too long to read.

use reference::program::join;
use reference::record::with_length;
use reference::table::{self, record, scanning};
use reference::{Point, Record};

use crate::Case;

/// Every further case.
pub fn all() -> Vec<Case> {
    let mut cases = cuts();
    cases.extend(short_inputs());
    cases.extend(bad_limits());
    cases.extend(flips());
    cases.extend([longest_zone(4_096), longest_zone(4_095)]);
    cases.extend([
        all_keys(3),
        all_keys(100),
        most_looks(),
        document_and_a_length(),
    ]);
    cases.extend(lengths());
    cases
}

fn case(name: String, catches: &str, input: Vec<u8>) -> Case {
    let catches = catches.to_string();
    Case {
        name,
        catches,
        input,
    }
}

/// A log of three records, cut at every byte.
fn cuts() -> Vec<Case> {
    let three = [
        record(0, &[Point::put(10, 100)]),
        record(1, &[Point::read(30)]),
        scanning(1, &[Point::delete(10)], &[(11, 19)]),
    ];
    let log = table::log(&three);
    let cut = |length: usize| {
        let input = join(3, 4, &log[..length]);
        case(
            format!("cut-at-{length}"),
            "The records before a cut.",
            input,
        )
    };
    (0..=log.len()).map(cut).collect()
}

/// The first 0 to 8 bytes of an input.
fn short_inputs() -> Vec<Case> {
    let input = table::input();
    let short = |length: usize| {
        let bytes = input[..length].to_vec();
        case(
            format!("input-of-{length}-bytes"),
            "Fewer than 8 bytes.",
            bytes,
        )
    };
    (0..=8).map(short).collect()
}

/// Both limits at and beyond their ranges.
fn bad_limits() -> Vec<Case> {
    let ns = [0, 1, 1_000, 1_001, 65_536, 65_537, u32::MAX];
    let zs = [0, 1, 4_096, 4_097, u32::MAX];
    let pairs = ns.iter().flat_map(|&n| zs.map(|z| (n, z)));
    pairs
        .map(|(n, z)| {
            let input = join(n, z, &record(0, &[]).to_bytes());
            case(format!("limits-{n}-{z}"), "The ranges of N and Z.", input)
        })
        .collect()
}

/// The two byte strings with each bit flipped: the bodies in a log each, the
/// length fields in a log for each bit, since they put the walk out of step.
fn flips() -> Vec<Case> {
    let first = record(0, &[Point::put(10, 100)]).to_bytes();
    let strings: [(&str, &[u8]); 2] = [("read", &table::READ_30), ("put", &table::PUT_30_SCAN)];
    let mut cases = Vec::new();
    for (name, string) in strings {
        let flipped = |bit: usize| {
            let mut bytes = string.to_vec();
            bytes[bit / 8] ^= 128 >> (bit % 8);
            bytes
        };
        let bodies: Vec<u8> = (16..string.len() * 8).flat_map(flipped).collect();
        let input = join(3, 4_096, &[&first[..], &bodies].concat());
        cases.push(case(
            format!("flips-{name}"),
            "A bit other than written.",
            input,
        ));
        for bit in 0..16 {
            let input = join(3, 4, &[&first[..], &flipped(bit), string].concat());
            cases.push(case(
                format!("flips-{name}-length-{bit}"),
                "A length other than written.",
                input,
            ));
        }
    }
    cases
}

/// A write at 1, then nothing until p - 1 = Z and p - 1 = Z + 1.
fn longest_zone(z: u32) -> Case {
    let mut records = vec![record(0, &[Point::put(7, 1)])];
    records.extend((1..z).map(|p| record(p, &[])));
    records.extend([record(0, &[Point::read(7)]), record(1, &[Point::read(7)])]);
    records.extend([record(1, &[Point::read(7)]), record(3, &[Point::delete(7)])]);
    let input = join(1, z, &table::log(&records));
    case(
        format!("longest-zone-{z}"),
        "The edge of a zone of thousands.",
        input,
    )
}

/// 1,000 keys fill the largest pool of the program; one more finds no room
/// until the tombstone of key 0 has its age, or is in the way for longer.
fn all_keys(z: u32) -> Case {
    let scattered = (0..1_000_u32).map(|index| index.wrapping_mul(0x9E37_79B1));
    let keys: Vec<u32> = scattered.collect();
    let mut records: Vec<Record> = Vec::new();
    for (index, chunk) in keys.chunks(64).enumerate() {
        let mut chunk = chunk.to_vec();
        chunk.sort_unstable();
        let puts: Vec<Point> = chunk.iter().map(|&key| Point::put(key, 9)).collect();
        records.push(record(index as u32, &puts));
    }
    let p = records.len() as u32;
    records.push(record(p, &[Point::put(1, 1)]));
    records.push(record(p, &[Point::delete(0)]));
    records.push(record(p + 1, &[Point::read(0), Point::read(keys[9])]));
    records.push(record(p + 1, &[Point::read(1), Point::read(u32::MAX)]));
    records.push(record(0, &[Point::read(keys[999])]));
    records.push(record(p + 5, &[Point::put(1, 1)]));
    let input = join(1_000, z, &table::log(&records));
    case(format!("all-keys-{z}"), "The largest pool.", input)
}

/// Many looks: neighbours of keys in a full tree, with snapshot 0.
fn most_looks() -> Case {
    let key = |index: u32| index.reverse_bits() | 1;
    let mut records: Vec<Record> = Vec::new();
    for group in 0..15_u32 {
        let mut keys: Vec<u32> = (0..64).map(|index| key(group * 64 + index)).collect();
        keys.sort_unstable();
        let puts: Vec<Point> = keys.iter().map(|&key| Point::put(key, 9)).collect();
        records.push(record(group, &puts));
    }
    let mut misses: Vec<u32> = (0..64).map(|index| key(index * 15) ^ 1).collect();
    misses.sort_unstable();
    let reads: Vec<Point> = misses.iter().map(|&key| Point::read(key)).collect();
    records.push(record(0, &reads));
    // From behind one key to before the next, eight times.
    let mut keys: Vec<u32> = (0..960).map(key).collect();
    keys.sort_unstable();
    let between = |place: usize| (keys[place] + 1, keys[place + 1] - 1);
    let gaps: Vec<(u32, u32)> = (0..8).map(|index| between(index * 119 + 7)).collect();
    records.push(scanning(0, &reads, &gaps));
    let input = join(1_000, 100, &table::log(&records));
    case(
        "most-looks".to_string(),
        "The looks of full records in a full tree.",
        input,
    )
}

/// The eleven rows, then length 904, which was impossible before there was version 2.
fn document_and_a_length() -> Case {
    let input = [table::input(), vec![3, 0x88, 1]].concat();
    case(
        "document-impossible".to_string(),
        "The eleven rows before a torn record.",
        input,
    )
}

/// A record, and these bytes behind it.
fn ended(name: String, end: &[u8]) -> Case {
    let first = record(0, &[Point::put(10, 100)]).to_bytes();
    let input = join(3, 4, &[&first[..], end].concat());
    case(name, "A torn log and an impossible length.", input)
}

/// A single byte behind a record.
fn last_byte(byte: u8) -> Case {
    ended(format!("last-byte-{byte}"), &[byte])
}

/// A length behind a record: with nothing behind it, with one byte, one too few, and all
/// of them, where that is no more than so many bytes.
fn length_and_some(length: usize, most: usize) -> Vec<Case> {
    let whole = with_length(&vec![1; length]);
    let mut ends = vec![2, 3, whole.len() - 1, whole.len()];
    ends.retain(|&end| 2 <= end && end <= whole.len() && end < most);
    ends.sort_unstable();
    ends.dedup();
    let there = |end: usize| format!("length-{length}-and-{}", end - 2);
    let case = |end: usize| ended(there(end), &whole[..end]);
    ends.into_iter().map(case).collect()
}

/// Lengths at their edges, as they were before there was version 2. And single bytes.
fn lengths() -> Vec<Case> {
    let mut cases: Vec<Case> = [0, 3, 4, 255].map(last_byte).to_vec();
    for length in [0, 1, 5, 6, 7, 8, 902, 903, 904, 905, 1_024, 1_792, 65_535] {
        cases.extend(length_and_some(length, 2_000));
    }
    cases
}

/// Those that came with version 2: the lengths at its edge, single bytes beside the first
/// of that length, each bit flipped in front of a record, and one cut within its counts.
pub fn larger() -> Vec<Case> {
    let mut cases: Vec<Case> = [0x36, 0x37].map(last_byte).to_vec();
    for length in [13_832, 13_833, 13_834, 13_835] {
        cases.extend(length_and_some(length, 20_000).into_iter().take(3));
    }
    let reads: Vec<Point> = (1..=65).map(Point::read).collect();
    let whole = record(0, &reads).to_bytes();
    let flipped = |bit: usize| {
        let mut bytes = whole.clone();
        bytes[bit / 8] ^= 128 >> (bit % 8);
        bytes
    };
    let bodies: Vec<u8> = (16..11 * 8).flat_map(flipped).collect();
    let input = join(3, 4_096, &bodies);
    cases.push(case(
        "flips-version-2".to_string(),
        "A bit other than written.",
        input,
    ));
    for end in [2, 3, 7, 8, 9, 10, 11, 12, whole.len() - 1] {
        cases.push(ended(format!("version-2-cut-at-{end}"), &whole[..end]));
    }
    cases
}

/// Those that came with deletes that write nothing (R22): in the largest pool of the
/// program, and a tombstone deleted at every position up to its age.
pub fn nothing() -> Vec<Case> {
    vec![nothing_in_the_largest_pool(), deleted_up_to_its_age(100)]
}

/// 1,000 keys of version 2; 1,024 deletes, of absent keys and then of one that is live too;
/// one key more finds no room, and one of those deleted does.
fn nothing_in_the_largest_pool() -> Case {
    let keys = |from: u32| (0..1_000).map(move |index| index * 7 + from);
    let puts: Vec<Point> = keys(0).map(|key| Point::put(key, 9)).collect();
    let deletes = |from: u32| -> Vec<Point> {
        (0..1_024)
            .map(|index| Point::delete(index * 7 + from))
            .collect()
    };
    let mut mixed = deletes(1);
    mixed[500] = Point::delete(500 * 7);
    let records = [
        record(0, &puts),
        record(1, &deletes(3)),
        record(1, &mixed),
        scanning(1, &[], &[(3, 6)]),
        scanning(1, &[], &[(3_500, 3_503)]),
        record(5, &[Point::put(1, 1)]),
        record(5, &[Point::put(3_500, 1)]),
    ];
    case(
        "nothing-in-the-largest-pool".to_string(),
        "Deletes of absent keys in the largest pool.",
        join(1_000, 9, &table::log(&records)),
    )
}

/// A key put and deleted, and deleted again at each position until its tombstone is old.
fn deleted_up_to_its_age(z: u32) -> Case {
    let mut records = vec![record(0, &[Point::put(7, 1)])];
    records.extend((1..z).map(|p| record(p, &[Point::delete(7)])));
    records.extend((z..z + 3).map(|p| record(p, &[Point::put(8, 1), Point::delete(9)])));
    case(
        format!("nothing-up-to-its-age-{z}"),
        "A tombstone deleted at every position.",
        join(1, z, &table::log(&records)),
    )
}
