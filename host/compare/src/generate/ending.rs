//! What can be wrong around the records: the limits in front, the log's end.

use reference::log::parts;
use reference::program::join;
use reference::random::Random;

use super::profile::Profile;

/// Inputs whose first 8 bytes are missing or bad, or good with noise behind.
pub fn bad_start(random: &mut Random) -> Vec<u8> {
    let whole = join(3, 4, &reference::table::READ_30);
    let record = &reference::table::READ_30;
    match random.below(6) {
        0 => whole[..random.pick(&[0, 0, 1, 3, 4, 5, 7, 8, 8])].to_vec(),
        1 => join(
            random.pick(&[0, 1_001, 65_536, 65_537, u32::MAX]),
            4,
            record,
        ),
        2 => join(3, random.pick(&[0, 4_097, u32::MAX]), record),
        3 => join(random.pick(&[1, 1_000]), random.pick(&[1, 4_096]), record),
        4 => join(random.word(), random.word(), record),
        _ => {
            let noise: Vec<u8> = (0..random.below(60)).map(|_| random.bits() as u8).collect();
            join(random.between(1, 1_000), random.between(1, 4_096), &noise)
        }
    }
}

/// Ends at the edges of R14: a length, and how many bytes stand behind it. Lengths that
/// can be and cannot, with two bytes left and with three, one byte too few, and all there.
const EDGES: [(u16, usize); 19] = [
    (0, 0),
    (6, 0),
    (6, 5),
    (6, 6),
    (7, 0),
    (7, 1),
    (7, 6),
    (903, 902),
    (903, 903),
    (904, 1),
    (904, 904),
    (13_833, 0),
    (13_833, 13_832),
    (13_833, 13_833),
    (13_834, 0),
    (13_834, 1),
    (13_834, 13_834),
    (u16::MAX, 20),
    (u16::MAX, 65_535),
];

/// How many ends `edge` has: those, and a single byte that no length begins with.
pub const EDGE_COUNT: usize = EDGES.len() + 1;

/// The end of this number, below `EDGE_COUNT`.
pub fn edge(number: usize) -> Vec<u8> {
    match EDGES.get(number) {
        Some(&(length, behind)) => [&length.to_be_bytes()[..], &vec![1; behind]].concat(),
        None => vec![0xFF],
    }
}

/// The log, its end spoiled in the profile's share of the cases.
pub fn perhaps_spoiled(log: Vec<u8>, profile: &Profile, random: &mut Random) -> Vec<u8> {
    if !random.percent(profile.spoiled) {
        return log;
    }
    match random.below(8) {
        0..=4 | 6 if profile.edges => [log, edge(random.below(EDGE_COUNT))].concat(),
        0..=2 => log[..random.below(log.len() + 1)].to_vec(),
        3 => cut_near_an_end(&log, random),
        4 => with_length_field(&log, random),
        5 => [log, vec![random.bits() as u8]].concat(),
        6 => [log, edge(random.below(EDGE_COUNT))].concat(),
        _ => [
            log,
            random.bits().to_be_bytes()[..1 + random.below(8)].to_vec(),
        ]
        .concat(),
    }
}

/// Cut at a record's end, or a byte or two beside it.
fn cut_near_an_end(log: &[u8], random: &mut Random) -> Vec<u8> {
    let (parts, _) = parts(log);
    let count = random.below(parts.len() + 1);
    let end: usize = parts[..count].iter().map(|part| part.len()).sum();
    let cut = (end + random.below(5)).saturating_sub(2);
    log[..cut.min(log.len())].to_vec()
}

/// Some record's length field set to an edge; what follows is read out of step.
fn with_length_field(log: &[u8], random: &mut Random) -> Vec<u8> {
    let (parts, _) = parts(log);
    let count = random.below(parts.len().max(1));
    let place: usize = parts[..count].iter().map(|part| part.len()).sum();
    let length: u16 = random.pick(&[0, 6, 7, 8, 256, 903, 904, 1_024, 13_833, 13_834, u16::MAX]);
    let mut log = log.to_vec();
    if let Some(field) = log.get_mut(place..place + 2) {
        field.copy_from_slice(&length.to_be_bytes());
    }
    log
}
