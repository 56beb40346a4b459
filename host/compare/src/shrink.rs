//! From a trial that differs to a smaller one that still does: records are
//! dropped and the last one torn, then go cuts between parts, points and scans, and the
//! last bytes of what is no record, until nothing more can go.

use reference::program::split_up_to;
use reference::record::{with_length, LEAST_LENGTH};
use reference::Record;

use crate::pieces::Pieces;
use crate::trial::Trial;

/// The most tries, so that a slow program cannot hold things up for long.
const TRIES: usize = 6_000;

/// The search for smaller pieces.
struct Search<'a> {
    differs: &'a mut dyn FnMut(&Trial) -> bool,
    best: Pieces,
    tries: usize,
}

/// The smallest trial found that still differs, for a program that takes N up
/// to `most`. `trial` itself must differ.
pub fn shrink(most: u32, trial: &Trial, differs: &mut dyn FnMut(&Trial) -> bool) -> Trial {
    let input = &trial.input;
    let Ok((_, log)) = split_up_to(most, input) else {
        let front = Trial {
            input: input[..input.len().min(8)].to_vec(),
            sizes: trial.sizes.as_ref().map(|_| Vec::new()),
        };
        return if differs(&front) {
            front
        } else {
            trial.clone()
        };
    };
    let best = Pieces::of(&input[..8], log, trial.sizes.as_deref());
    if best.trial() != *trial && !differs(&best.trial()) {
        // It is how the sizes are said that makes the difference.
        return trial.clone();
    }
    let tries = TRIES;
    let mut search = Search {
        differs,
        best,
        tries,
    };
    loop {
        let before = search.best.size();
        search.drop_tail();
        search.drop_records();
        search.tear_last_record();
        search.drop_cuts();
        search.drop_points_and_scans();
        search.drop_last_bytes();
        if search.best.size() == before {
            return search.best.trial();
        }
    }
}

impl Search<'_> {
    /// Takes the smaller pieces if they still differ.
    fn take(&mut self, smaller: Pieces) -> bool {
        if self.tries == 0 {
            return false;
        }
        self.tries -= 1;
        let taken = (self.differs)(&smaller.trial());
        if taken {
            self.best = smaller;
        }
        taken
    }

    /// Leaves out what stands behind the last record, or last bytes of it: half of
    /// what is there, then a half of that, and so on.
    fn drop_tail(&mut self) {
        let mut bytes = self.best.tail.bytes.len();
        while bytes > 0 {
            let mut smaller = self.best.clone();
            let tail = &mut smaller.tail;
            if let Some(left) = tail.bytes.len().checked_sub(bytes) {
                tail.bytes.truncate(left);
                tail.cuts.retain(|&cut| cut <= left);
                self.take(smaller);
            }
            bytes /= 2;
        }
    }

    /// Leaves of the last record no more than its length, if nothing stands behind it.
    fn tear_last_record(&mut self) {
        if !self.best.tail.bytes.is_empty() {
            return;
        }
        let mut smaller = self.best.clone();
        if let Some(mut last) = smaller.records.pop() {
            last.bytes.truncate(2);
            last.cuts.retain(|&cut| cut <= 2);
            last.cuts
                .extend(smaller.tail.cuts.iter().map(|cut| cut + 2));
            smaller.tail = last;
            self.take(smaller);
        }
    }

    /// Leaves out runs of cuts between parts, long runs first, from the end to
    /// the front.
    fn drop_cuts(&mut self) {
        let count = |best: &Pieces| best.all().map(|piece| piece.cuts.len()).sum::<usize>();
        let mut run = count(&self.best).div_ceil(2);
        while run > 0 {
            let mut end = count(&self.best);
            while end > 0 {
                let start = end.saturating_sub(run);
                let mut smaller = self.best.clone();
                let mut number = 0;
                for piece in smaller.records.iter_mut().chain([&mut smaller.tail]) {
                    piece.cuts.retain(|_| {
                        number += 1;
                        !(start < number && number <= end)
                    });
                }
                self.take(smaller);
                end = start;
            }
            run /= 2;
        }
    }

    /// Leaves out runs of records, long runs first, from the end to the front.
    fn drop_records(&mut self) {
        let mut run = self.best.records.len().div_ceil(2);
        while run > 0 {
            let mut end = self.best.records.len();
            while end > 0 {
                let start = end.saturating_sub(run);
                self.drop_run(start, end);
                end = start;
            }
            run /= 2;
        }
    }

    /// Leaves out the records `start..end`, first with later snapshots moved
    /// along, then with snapshots as they are.
    fn drop_run(&mut self, start: usize, end: usize) {
        let mut kept = self.best.clone();
        kept.records.drain(start..end);
        let mut moved = kept.clone();
        for piece in &mut moved.records[start..] {
            move_snapshot(&mut piece.bytes, start as u32, end as u32);
        }
        if !self.take(moved) {
            self.take(kept);
        }
    }

    /// Leaves out points and scans of well-formed records.
    fn drop_points_and_scans(&mut self) {
        for index in 0..self.best.records.len() {
            self.drop_from_list(index, |record| &mut record.points);
            self.drop_from_list(index, |record| &mut record.scans);
        }
    }

    /// Leaves out runs of a list of the record at this place, long runs first, from the
    /// end to the front.
    fn drop_from_list<T>(&mut self, index: usize, list: fn(&mut Record) -> &mut Vec<T>) {
        let Ok(mut record) = Record::parse(&self.best.records[index].bytes) else {
            return;
        };
        let mut run = list(&mut record).len();
        while run > 0 {
            let mut end = list(&mut record).len();
            while end > 0 {
                let start = end.saturating_sub(run);
                let mut smaller = record.clone();
                list(&mut smaller).drain(start..end);
                if self.replace(index, &smaller) {
                    record = smaller;
                }
                end = start;
            }
            run /= 2;
        }
    }

    /// Leaves out last bytes of records that are not well formed, half of what
    /// can go, then a half of that, and so on.
    fn drop_last_bytes(&mut self) {
        for index in 0..self.best.records.len() {
            if Record::parse(&self.best.records[index].bytes).is_ok() {
                continue;
            }
            let mut bytes = self.best.records[index].bytes.len() - 2 - LEAST_LENGTH;
            while bytes > 0 {
                let body = &self.best.records[index].bytes[2..];
                if bytes + LEAST_LENGTH <= body.len() {
                    let shorter = with_length(&body[..body.len() - bytes]);
                    self.replace_bytes(index, shorter);
                }
                bytes /= 2;
            }
        }
    }

    /// Tries a record in the place of another.
    fn replace(&mut self, index: usize, record: &Record) -> bool {
        self.replace_bytes(index, record.to_bytes())
    }

    /// Tries bytes in the place of a record's. Cuts behind their end are at the
    /// last byte then.
    fn replace_bytes(&mut self, index: usize, bytes: Vec<u8>) -> bool {
        let mut smaller = self.best.clone();
        let piece = &mut smaller.records[index];
        for cut in &mut piece.cuts {
            *cut = (*cut).min(bytes.len() - 1);
        }
        piece.bytes = bytes;
        self.take(smaller)
    }
}

/// The snapshot after the records at `start + 1 ..= end` are gone.
fn move_snapshot(part: &mut [u8], start: u32, end: u32) {
    let Some(field) = part.get_mut(3..7) else {
        return;
    };
    let snapshot = u32::from_be_bytes([field[0], field[1], field[2], field[3]]);
    let moved = match snapshot {
        below if below <= start => below,
        inside if inside <= end => start,
        above => above - (end - start),
    };
    field.copy_from_slice(&moved.to_be_bytes());
}
