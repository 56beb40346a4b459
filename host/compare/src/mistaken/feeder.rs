//! Feeding (R47) with one mistake or none. Without a mistake it is a second way to
//! feed: it never puts carry and part together, but completes a record in the carry
//! or takes it from the part, as firmware would.

use reference::{Answer, Fed, Said};

use super::feed::FeedMistake;
use super::meld::Pool;

/// A feeder: pool and carry, and what was said last.
pub struct Feeder {
    mistake: Option<FeedMistake>,
    /// None for an unfit pool.
    pool: Option<Pool>,
    /// The carry's bytes.
    pub carry: Vec<u8>,
    looks: u32,
}

impl Feeder {
    /// A feeder over a new pool with these limits and a carry.
    pub fn new(mistake: Option<FeedMistake>, (n, z): (u32, u32), carry: Vec<u8>) -> Feeder {
        Feeder {
            mistake,
            pool: Some(Pool::new(n, z, None)),
            carry,
            looks: 0,
        }
    }

    /// The same over a pool into which these records were melded.
    pub fn after(mut self, records: &[Vec<u8>]) -> Feeder {
        for record in records {
            self.melded(record);
        }
        self
    }

    /// The same over an unfit pool.
    pub fn unfit(mut self) -> Feeder {
        self.pool = None;
        self
    }

    /// The position of the pool, if it is fit.
    pub fn position(&self) -> Option<u32> {
        self.pool.as_ref().map(|pool| pool.p)
    }

    /// The bytes of a carry.
    pub fn carry_bytes(mistake: Option<FeedMistake>) -> usize {
        match mistake {
            Some(FeedMistake::CarryOfBefore) => 905,
            _ => 13_835,
        }
    }

    /// The bytes of this one's carry.
    fn room(&self) -> usize {
        Feeder::carry_bytes(self.mistake)
    }

    /// Can a record have this length?
    fn can_be(&self, length: usize) -> bool {
        let most = match self.mistake {
            Some(FeedMistake::LengthOfBefore) => 903,
            Some(FeedMistake::LengthNotMost) => 13_832,
            Some(FeedMistake::LengthAboveTaken) => 13_834,
            _ => 13_833,
        };
        (7..=most).contains(&length)
    }

    fn has(&self, mistake: FeedMistake) -> bool {
        self.mistake == Some(mistake)
    }

    /// One call.
    pub fn feed(&mut self, carried: usize, part: &[u8], over: bool) -> Fed {
        if !self.takes(carried) {
            return refused(Answer::OutputShort, carried);
        }
        let carried = match part {
            [] if self.has(FeedMistake::EmptyDropsCarried) && !over => 0,
            _ => carried.min(self.room()),
        };
        if self.pool.is_none() && self.has(FeedMistake::UnfitFirst) {
            return refused(Answer::UnfitPool, carried);
        }
        let over = over || part.is_empty() && self.has(FeedMistake::EmptyIsOver);
        if over && self.has(FeedMistake::OverFirst) {
            return self.rest(carried, part, over);
        }
        match self.length(carried, part) {
            Some(length) if !self.can_be(length) => self.impossible(length, carried, part, over),
            Some(length) => {
                let missing = (length + 2).saturating_sub(carried);
                let late = usize::from(self.has(FeedMistake::LastByteLate));
                let alone = missing == 1 && part.len() == 1 && carried > 2;
                if part.len() < missing + late {
                    self.rest(carried, part, over)
                } else if alone && self.has(FeedMistake::LastByteAlone) {
                    self.carry[0] = part[0];
                    more(1, 1)
                } else {
                    self.decided(length + 2, carried, part)
                }
            }
            None => match (carried, part) {
                (1, []) if self.begins_none(self.carry[0]) => {
                    refused(Answer::ImpossibleLength, carried)
                }
                (0, [first]) if self.begins_none(*first) => {
                    self.put(0, part);
                    Fed {
                        taken: 1,
                        ..refused(Answer::ImpossibleLength, 1)
                    }
                }
                _ => self.rest(carried, part, over),
            },
        }
    }

    /// Is this first byte taken for one that no length begins with?
    fn begins_none(&self, first: u8) -> bool {
        self.has(FeedMistake::FirstByteJudged) && first > 0x36
    }

    /// May this carry and count be?
    fn takes(&self, carried: usize) -> bool {
        let size = self.carry.len();
        if size < self.room() || size > self.room() && !self.has(FeedMistake::CarrySizeTrusted) {
            return false;
        }
        if self.has(FeedMistake::CountTrusted) || carried < 2 {
            return true;
        }
        let length = usize::from(self.carry[0]) << 8 | usize::from(self.carry[1]);
        match self.can_be(length) {
            true => carried < length + 2,
            false => carried == 2 && !self.has(FeedMistake::ImpossibleNotCarried),
        }
    }

    /// The length, if both its bytes are in.
    fn length(&self, carried: usize, part: &[u8]) -> Option<usize> {
        let number = |high: u8, low: u8| usize::from(high) << 8 | usize::from(low);
        match (carried, part) {
            (1, [high, low, ..]) if self.has(FeedMistake::LengthFromPart) => {
                Some(number(*high, *low))
            }
            (1, [_, ..]) if self.has(FeedMistake::LengthFromCarry) => {
                Some(number(self.carry[0], self.carry[1]))
            }
            (_, [high, low, ..]) if self.has(FeedMistake::LengthOfPart) => {
                Some(number(*high, *low))
            }
            (0, [high, low, ..]) => Some(number(*high, *low)),
            (1, [low, ..]) => Some(number(self.carry[0], *low)),
            (0 | 1, _) => None,
            _ => Some(number(self.carry[0], self.carry[1])),
        }
    }

    /// The length that is in cannot be.
    fn impossible(&mut self, length: usize, carried: usize, part: &[u8], over: bool) -> Fed {
        let new = 2_usize.saturating_sub(carried).min(part.len());
        if self.has(FeedMistake::ImpossibleLate) && !over {
            return self.rest(carried, part, over);
        }
        let torn = match self.mistake {
            Some(FeedMistake::ImpossibleTorn) => true,
            Some(FeedMistake::ImpossibleShortTorn) => carried + part.len() < length + 2,
            Some(FeedMistake::ImpossibleThenTorn) => carried == 2,
            Some(FeedMistake::ImpossibleOverTorn) => over,
            _ => false,
        };
        let answer = match torn {
            true => Answer::TornLog,
            false => Answer::ImpossibleLength,
        };
        if self.has(FeedMistake::ImpossibleNotTaken) {
            return refused(answer, carried);
        }
        if !self.has(FeedMistake::ImpossibleForgotten) {
            self.put(carried, &part[..new]);
        }
        Fed {
            taken: match self.has(FeedMistake::ImpossibleTakesAll) {
                true => part.len(),
                false => new,
            },
            ..refused(answer, carried + new)
        }
    }

    /// The record of `size` bytes is in.
    fn decided(&mut self, size: usize, carried: usize, part: &[u8]) -> Fed {
        let missing = size.saturating_sub(carried);
        if carried > 0 && size > self.room() {
            return refused(Answer::OutputShort, carried);
        }
        if self.pool.is_none() {
            if self.has(FeedMistake::UnfitCarries) {
                self.put(carried, &part[..missing]);
            }
            let taken = match self.has(FeedMistake::UnfitTakes) {
                true => missing,
                false => 0,
            };
            return Fed {
                taken,
                ..refused(Answer::UnfitPool, carried)
            };
        }
        if carried > 0 && self.has(FeedMistake::BehindChanged) {
            self.put(carried, part);
        }
        if carried > 0 || self.has(FeedMistake::WholeCopied) {
            self.put(carried, &part[..missing]);
        }
        let record = match carried {
            0 => part[..size].to_vec(),
            _ => self.carry[..size].to_vec(),
        };
        let (answer, mut looks) = self.melded(&record);
        if carried > 0 && self.has(FeedMistake::DecidedTwice) {
            self.melded(&record);
        }
        if carried > 0 && self.has(FeedMistake::LooksLost) {
            looks = 0;
        }
        if self.has(FeedMistake::CarryCleared) {
            self.carry.fill(0);
        }
        self.looks = looks;
        let fed = Fed {
            said: Said::Answer(answer),
            looks,
            taken: missing,
            carried: 0,
        };
        self.behind(fed, carried, part)
    }

    /// Mistakes with what stands behind a decided record.
    fn behind(&mut self, fed: Fed, carried: usize, part: &[u8]) -> Fed {
        let rest = &part[fed.taken..];
        match self.mistake {
            Some(FeedMistake::RestLost) => Fed {
                taken: part.len(),
                ..fed
            },
            Some(FeedMistake::RestCarried) => {
                self.put(0, rest);
                Fed {
                    taken: part.len(),
                    carried: rest.len().min(self.room()),
                    ..fed
                }
            }
            Some(FeedMistake::AllAtOnce) => match self.length(0, rest) {
                Some(length) if self.can_be(length) && rest.len() >= length + 2 => {
                    let next = self.decided(length + 2, 0, rest);
                    Fed {
                        taken: fed.taken + next.taken,
                        ..next
                    }
                }
                _ => fed,
            },
            Some(FeedMistake::CountKept) => Fed { carried, ..fed },
            Some(FeedMistake::CarriedCounted) => Fed {
                taken: (fed.taken + carried).min(part.len()),
                ..fed
            },
            _ => fed,
        }
    }

    /// No whole record is in.
    fn rest(&mut self, carried: usize, part: &[u8], over: bool) -> Fed {
        if over && !self.has(FeedMistake::OverIgnored) {
            let nothing = carried == 0 && part.is_empty();
            return if nothing || self.has(FeedMistake::TornIsEnd) {
                Fed {
                    said: Said::End,
                    ..more(0, carried)
                }
            } else {
                self.torn(carried, part)
            };
        }
        if self.has(FeedMistake::TornEarly) && carried + part.len() > 2 {
            return refused(Answer::TornLog, carried);
        }
        let from = match self.has(FeedMistake::PartDropped) && !part.is_empty() {
            true => 0,
            false => carried,
        };
        if from + part.len() > self.room() && self.has(FeedMistake::CarryOfBefore) {
            return refused(Answer::OutputShort, carried);
        }
        self.put(from, part);
        let looks = match self.has(FeedMistake::MoreHasLooks) {
            true => self.looks,
            false => 0,
        };
        Fed {
            looks,
            ..more(part.len(), (from + part.len()).min(self.room()))
        }
    }

    /// The log is over, and too few bytes are in.
    fn torn(&self, carried: usize, part: &[u8]) -> Fed {
        match self.mistake {
            Some(FeedMistake::TornForgotten) => refused(Answer::TornLog, 0),
            Some(FeedMistake::TornImpossible) => refused(Answer::ImpossibleLength, carried),
            Some(FeedMistake::OneByteImpossible) if carried + part.len() == 1 => {
                refused(Answer::ImpossibleLength, carried)
            }
            _ => refused(Answer::TornLog, carried),
        }
    }

    /// Bytes into the carry, as far as it goes.
    fn put(&mut self, from: usize, bytes: &[u8]) {
        let room = self.carry[from..].iter_mut();
        for (there, byte) in room.zip(bytes) {
            *there = *byte;
        }
    }

    /// The verdict of the pool, which is fit.
    fn melded(&mut self, record: &[u8]) -> (Answer, u32) {
        let pool = self.pool.as_mut().expect("the pool is fit");
        let (answer, looks, _) = pool.meld(record);
        (Answer::ALL[usize::from(answer)], looks)
    }
}

fn refused(answer: Answer, carried: usize) -> Fed {
    Fed {
        said: Said::Answer(answer),
        ..more(0, carried)
    }
}

fn more(taken: usize, carried: usize) -> Fed {
    Fed {
        said: Said::More,
        looks: 0,
        taken,
        carried,
    }
}
