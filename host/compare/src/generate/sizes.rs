//! Sizes of the parts that a log is cut into.

use reference::log::parts;
use reference::random::Random;

/// The pages of a flash driver.
pub const PAGES: [usize; 2] = [256, 2_048];

/// The longest log that is cut at every place.
pub const SHORT: usize = 120;

/// Sizes for a log: pages, single bytes, cuts beside records' ends, any sizes;
/// empty parts among them, and now and then more than the log has.
pub fn sizes(log: &[u8], random: &mut Random) -> Vec<usize> {
    let mut sizes = match random.below(8) {
        0 => vec![PAGES[0]; log.len() / PAGES[0] + 1],
        1 => vec![PAGES[1]; log.len() / PAGES[1] + 1],
        2 => vec![1; log.len()],
        3..=4 => beside_ends(log, random),
        5 => any(log, &[1, 2, 3], random),
        6 => any(log, &[1, 2, 9, 40], random),
        _ => any(log, &[1, 9, 100, 905, 906, 2_000, 13_835], random),
    };
    if random.percent(40) {
        let share = random.pick(&[1, 10, 50]);
        sizes = with_empty_parts(&sizes, share, random);
    }
    match random.below(8) {
        0 => sizes.truncate(random.below(sizes.len() + 1)),
        1 => sizes.push(random.pick(&[1, 1_000, 1_000_000])),
        2 => sizes.extend([0, 0]),
        _ => {}
    }
    sizes
}

/// Every way to cut a short log in two, with an empty part in between; none for
/// a longer one.
pub fn every_cut(log: &[u8]) -> Vec<Vec<usize>> {
    if log.len() > SHORT {
        return Vec::new();
    }
    (0..=log.len()).map(|place| vec![place, 0]).collect()
}

/// Sizes up to a bound that is picked anew for each, as far as the log goes.
fn any(log: &[u8], bounds: &[usize], random: &mut Random) -> Vec<usize> {
    let mut sizes = Vec::new();
    let mut place = 0;
    while place < log.len() {
        let bound = random.pick(bounds);
        let size = random.below(bound + 1);
        sizes.push(size);
        place += size;
    }
    sizes
}

/// Cuts at records' ends and up to three bytes beside them, where a length and a
/// last byte are; some records' ends are left out.
fn beside_ends(log: &[u8], random: &mut Random) -> Vec<usize> {
    let (records, _) = parts(log);
    let (mut end, mut last, mut sizes) = (0, 0, Vec::new());
    for record in records {
        end += record.len();
        if random.percent(25) {
            continue;
        }
        let place = (end + random.below(6)).saturating_sub(2).max(last);
        sizes.push(place - last);
        last = place;
        if random.percent(30) {
            sizes.push(1);
            last += 1;
        }
    }
    sizes
}

/// Empty parts in front of so many of them in a hundred.
fn with_empty_parts(sizes: &[usize], share: usize, random: &mut Random) -> Vec<usize> {
    let mut more = Vec::new();
    for &size in sizes {
        if random.percent(share) {
            more.push(0);
        }
        more.push(size);
    }
    more
}
