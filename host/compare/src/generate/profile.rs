//! Kinds of logs.

use reference::random::Random;

use super::keys::universe;

/// What a log is to be like. Shares are so many in a hundred.
#[derive(Clone, Debug)]
pub struct Profile {
    /// N.
    pub n: u32,
    /// Z.
    pub z: u32,
    /// The number of records.
    pub records: usize,
    /// The keys in use, never empty.
    pub keys: Vec<u32>,
    /// The most points of an ordinary record.
    pub points: usize,
    /// Points that are puts.
    pub puts: usize,
    /// Points that are deletes.
    pub deletes: usize,
    /// Records with scans.
    pub scans: usize,
    /// Snapshots that are exactly p.
    pub current: usize,
    /// Records that are spoiled.
    pub malformed: usize,
    /// Records with nothing in them and snapshot p.
    pub idle: usize,
    /// Records as full as version 1 has them.
    pub full: usize,
    /// Records with counts at the edges of both versions, up to 1,024 points and 64 scans.
    pub larger: usize,
    /// Records that delete keys side by side, live or not.
    pub ranges: usize,
    /// Records with a delete besides: of a tombstone, of a live key or of another.
    pub returns: usize,
    /// Logs with a spoiled end.
    pub spoiled: usize,
    /// Is a spoiled end at an edge of R14, three times in four?
    pub edges: bool,
}

impl Profile {
    /// A profile; tiny pools most often, since there the edges meet.
    pub fn choose(random: &mut Random) -> Profile {
        match random.below(100) {
            0..=15 => Profile::tiny(random),
            16..=23 => Profile::returned(random),
            24..=28 => Profile::larger(random),
            29..=49 => Profile::small(random),
            50..=64 => Profile::tombstones(random),
            65..=73 => Profile::wide(random),
            74..=79 => Profile::fullest(random),
            80..=87 => Profile::malformed(random),
            88..=94 => Profile::spoiled_end(random),
            95..=97 => Profile::sleepy(random),
            _ => Profile::longest_zone(random),
        }
    }

    /// A pool of 1 to 3 keys.
    fn tiny(random: &mut Random) -> Profile {
        let n = random.between(1, 3);
        let count = n as usize + 1 + random.below(4);
        Profile {
            n,
            z: random.between(1, 6),
            records: 4 + random.below(40),
            keys: universe(count, random),
            points: 2,
            puts: 45,
            deletes: 25,
            scans: 15,
            current: 55,
            malformed: 3,
            idle: 3,
            full: 0,
            larger: 0,
            ranges: 0,
            returns: 0,
            spoiled: 8,
            edges: false,
        }
    }

    /// A pool of 4 to 16 keys.
    fn small(random: &mut Random) -> Profile {
        let n = random.between(4, 16);
        let count = 3 + random.below(n as usize + 6);
        Profile {
            n,
            z: random.between(1, 12),
            records: 10 + random.below(70),
            keys: universe(count, random),
            points: 4,
            scans: 25,
            full: 1,
            ..Profile::tiny(random)
        }
    }

    /// Deletes and little room, so that tombstones come to their age.
    fn tombstones(random: &mut Random) -> Profile {
        let n = random.between(1, 7);
        let count = n as usize + 1 + random.below(3);
        Profile {
            n,
            z: random.between(1, 5),
            records: 20 + random.below(60),
            keys: universe(count, random),
            puts: 45,
            deletes: 45,
            scans: 5,
            current: 85,
            malformed: 1,
            ..Profile::tiny(random)
        }
    }

    /// Deletes of keys that are not live: never put, or deleted before.
    fn returned(random: &mut Random) -> Profile {
        let n = random.pick(&[1, 2, 3, 3, 4, 6, 64, 65, 100]);
        let count = 2 + random.below((n as usize).min(20) + 3);
        Profile {
            n,
            z: random.between(1, 5),
            records: 10 + random.below(60),
            keys: universe(count, random),
            points: 3,
            puts: 50,
            deletes: 20,
            scans: 25,
            current: 65,
            malformed: 1,
            ranges: 15,
            returns: 50,
            ..Profile::tiny(random)
        }
    }

    /// Pools up to the largest, filled.
    fn wide(random: &mut Random) -> Profile {
        let n = random.pick(&[20, 63, 64, 65, 128, 500, 999, 1_000]);
        let count = n as usize * (50 + random.below(100)) / 100;
        Profile {
            n,
            z: random.between(1, 200),
            records: 20 + random.below(150),
            keys: universe(count, random),
            points: random.pick(&[4, 16, 64]),
            puts: 60,
            deletes: 15,
            scans: 30,
            current: 50,
            full: 4,
            ..Profile::tiny(random)
        }
    }

    /// Pools of more keys than the program of R41 takes, the smaller ones filled.
    pub fn large(random: &mut Random) -> Profile {
        let n = random.pick(&[1_001, 1_002, 1_024, 2_000, 4_095, 16_384, 65_535, 65_536]);
        let count = (n as usize * (50 + random.below(100)) / 100).min(9_000);
        Profile {
            n,
            z: random.pick(&[1, 5, 30, 200, 4_096]),
            records: 20 + random.below(60),
            keys: universe(count, random),
            points: 64,
            puts: 75,
            deletes: 15,
            scans: 30,
            current: 75,
            full: 60,
            larger: 8,
            ranges: 5,
            returns: 20,
            ..Profile::tiny(random)
        }
    }

    /// A few records at the edges of both versions, in pools that have room for some of them.
    fn larger(random: &mut Random) -> Profile {
        let n = random.pick(&[65, 256, 999, 1_000]);
        let count = 70 + random.below(3_000);
        Profile {
            n,
            z: random.between(1, 12),
            keys: universe(count, random),
            records: 2 + random.below(12),
            points: 4,
            puts: random.pick(&[2, 20, 80]),
            deletes: 5,
            scans: 50,
            current: 35,
            malformed: 35,
            larger: 50,
            ranges: 20,
            ..Profile::tiny(random)
        }
    }

    /// Records of 64 and 65 points, 8 and 9 scans.
    fn fullest(random: &mut Random) -> Profile {
        let n = random.pick(&[63, 64, 65, 100, 300]);
        let count = 60 + random.below(100);
        Profile {
            n,
            keys: universe(count, random),
            records: 5 + random.below(30),
            points: 64,
            scans: 50,
            current: 75,
            malformed: 15,
            full: 50,
            ..Profile::tiny(random)
        }
    }

    /// Every other record spoiled.
    fn malformed(random: &mut Random) -> Profile {
        Profile {
            malformed: 50,
            scans: 45,
            current: 70,
            ..Profile::small(random)
        }
    }

    /// A log whose end is always spoiled: torn, or an impossible length.
    pub fn spoiled_end(random: &mut Random) -> Profile {
        Profile {
            spoiled: 100,
            edges: true,
            records: 1 + random.below(12),
            ..Profile::small(random)
        }
    }

    /// Room for all that is written, and writers a few positions back.
    pub fn beaten(random: &mut Random) -> Profile {
        let count = 10 + random.below(150);
        Profile {
            n: random.pick(&[20, 200, 1_000]),
            z: random.between(2, 9),
            records: 10 + random.below(30),
            keys: universe(count, random),
            points: 4,
            ..Profile::tiny(random)
        }
    }

    /// Long zones with little in them.
    fn sleepy(random: &mut Random) -> Profile {
        let z = random.between(20, 300);
        Profile {
            z,
            records: z as usize + random.below(z as usize),
            idle: 90,
            current: 20,
            ..Profile::small(random)
        }
    }

    /// The longest zone there is, passed by a few records.
    fn longest_zone(random: &mut Random) -> Profile {
        let z = random.pick(&[4_094, 4_095, 4_096]);
        Profile {
            z,
            records: z as usize + 10 + random.below(60),
            idle: 97,
            current: 10,
            malformed: 0,
            ..Profile::small(random)
        }
    }
}
