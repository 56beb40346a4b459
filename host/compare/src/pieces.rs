//! A trial in pieces, record by record, so that a record can go and the cuts between
//! parts that are in it go with it.

use reference::log::parts;
use reference::pages::cut;

use crate::trial::Trial;

/// Bytes of the log, and the places in them where a part ends: 0 is in front of
/// the first byte, and a place that stands twice is an empty part.
#[derive(Clone, Debug, Default)]
pub struct Piece {
    /// The bytes.
    pub bytes: Vec<u8>,
    /// The places, in rising order.
    pub cuts: Vec<usize>,
}

/// A trial in pieces: a piece a record, and the tail behind the last.
#[derive(Clone, Debug)]
pub struct Pieces {
    /// N and Z.
    pub limits: Vec<u8>,
    /// The records.
    pub records: Vec<Piece>,
    /// What stands behind the last record.
    pub tail: Piece,
    /// Is it the page form that is tried?
    pub in_parts: bool,
}

impl Pieces {
    /// The pieces of a trial whose limits are good.
    pub fn of(limits: &[u8], log: &[u8], sizes: Option<&[usize]>) -> Pieces {
        let lengths = cut(log, sizes.unwrap_or(&[]));
        let count = sizes.map_or(0, <[usize]>::len);
        let mut places = lengths.iter().take(count).scan(0, |end, part| {
            *end += part.len();
            Some(*end)
        });
        let mut place = places.next();
        let mut start = 0;
        let mut piece = |bytes: &[u8], end: usize| {
            let mut cuts = Vec::new();
            while let Some(inside) = place.filter(|&place| place < end) {
                cuts.push(inside - start);
                place = places.next();
            }
            start += bytes.len();
            let bytes = bytes.to_vec();
            Piece { bytes, cuts }
        };
        let (found, tail) = parts(log);
        let mut end = 0;
        let records = found.iter().map(|record| {
            end += record.len();
            piece(record, end)
        });
        Pieces {
            limits: limits.to_vec(),
            records: records.collect(),
            tail: piece(tail, usize::MAX),
            in_parts: sizes.is_some(),
        }
    }

    /// Records and tail, in order.
    pub fn all(&self) -> impl Iterator<Item = &Piece> {
        self.records.iter().chain([&self.tail])
    }

    /// The trial that these pieces are.
    pub fn trial(&self) -> Trial {
        let (mut start, mut last) = (0, 0);
        let (mut input, mut sizes) = (self.limits.clone(), Vec::new());
        for piece in self.all() {
            for &inside in &piece.cuts {
                sizes.push(start + inside - last);
                last = start + inside;
            }
            start += piece.bytes.len();
            input.extend(&piece.bytes);
        }
        match self.in_parts {
            true => Trial::in_parts(input, sizes),
            false => Trial::whole(input),
        }
    }

    /// How much there is of them: bytes and cuts.
    pub fn size(&self) -> usize {
        let size = |piece: &Piece| piece.bytes.len() + piece.cuts.len();
        self.all().map(size).sum()
    }
}

#[cfg(test)]
mod tests {
    use super::Pieces;
    use crate::generate;
    use reference::pages::cut;
    use reference::program::split;

    /// The same input, and the same parts; a size past the log's end is said as
    /// what it takes.
    #[test]
    fn pieces_are_put_together_again() {
        for trial in (0..200).flat_map(generate::in_parts) {
            let Ok((_, log)) = split(&trial.input) else {
                continue;
            };
            let sizes = trial.sizes.as_deref();
            let again = Pieces::of(&trial.input[..8], log, sizes).trial();
            let (before, after) = (sizes.unwrap(), again.sizes.unwrap());
            assert_eq!(again.input, trial.input);
            assert_eq!(before.len(), after.len());
            assert_eq!(cut(log, before), cut(log, &after));
        }
    }
}
