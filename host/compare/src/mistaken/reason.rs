//! The reasons of a log (R50) with one mistake of choice or none; what tells them is an
//! `Explainer`.

use super::explainer::Explainer;
use super::record::{limits, next_part, Next};
use super::Mistake;

mistakes! {
    /// A mistake that one might make in telling why a record gets its answer (R50).
    ReasonMistake {
        LargestKey: "the largest key in conflict is told",
        PointsFirst: "a key that a point has is told before a smaller one in a scan",
        ScansFirst: "a key in a scan is told before a smaller one that a point has",
        NewestKey: "the key in conflict that was written last is told",
        OldestKey: "the key in conflict that was written first is told",
        SignedKey: "the smallest key in conflict is found by signed numbers",
        LiveKey: "a deleted key is told only where no live one is in conflict",
        KeyZeroIsNone: "key 0 is told only where no other key is in conflict",
        KeptKey: "the smallest kept key that is named or scanned is told, whenever it was written",
        ScanLowTold: "the low end of the scan is told in the key's place",
        ScanBeforePoint: "the scan is told where a point has the key too",
        BothTold: "the scan is told besides the point",
        PointAtOrAbove: "the first point at or above the key is told where only a scan has it",
        PointsFromZero: "the first point has number 0",
        ScansFromZero: "the first scan has number 0",
        ScansBehindPoints: "scans are numbered behind the points",
        PointsOfItsKind: "a point's number is counted among the points of its kind",
        PointInAByte: "a point's number is told in one byte",
        PointsUpTo64: "a point behind the 64th is told as the 64th",
        ScansUpTo8: "a scan behind the 8th is told as the 8th",
        OwnPosition: "the record's own position is told for the write's",
        LastPosition: "p is told for the write's position",
        SnapshotTold: "s is told for the write's position",
        FirstWrite: "the first write of the key is told, not the last",
        FirstWriteSince: "the first write of the key since the snapshot is told, not the last",
        NewestInConflict: "the newest write of all keys in conflict is told",
        NewestOfAll: "the newest write of all kept keys is told",
        RefusedWriter: "a refused record is taken for the writer",
        ReadWriter: "a committed record that reads the key is taken for the writer",
        DeletesAlwaysWrite: "a delete of a key that is not live is a write, as it once was",
        NothingBlamed: "a delete that wrote nothing is taken for the writer",
        LagFromV: "the lag is v - s",
        LagIsZ: "the lag is Z",
        LagBeyondZ: "the lag is p - s - Z",
        LagWithConflict: "the lag is told with 1 too",
        LagWithAhead: "with 5 the lag is s - p",
        OldHasConflict: "a conflict is told with 2",
        WrittenNotCounted: "the keys written are not counted",
        NothingCounted: "the keys deleted are counted, live or not",
        ReadsCounted: "the keys read are counted",
        CountedTwice: "a key that is kept and written is counted twice",
        OldTombstonesCounted: "old tombstones are counted",
        TombstonesNotCounted: "only live keys and keys written are counted",
        TombstonesCountedLong: "a tombstone is counted a position too long",
        TombstonesCountedShort: "a tombstone is counted a position too short",
        OldRewrittenLost: "a key with an old tombstone is not counted where it is written",
        KeysBeyondN: "how many keys are too many is told",
        KeysIsN: "N is told",
        KeysWithCommitted: "the keys are counted with 0 too",
        KeysWithConflict: "the keys are counted with 1 too",
        LooksMissing: "looks are 0",
        LooksGoOn: "the looks go on behind the first key in conflict",
        ExplainingMelds: "explaining melds the record",
        ImpossibleTorn: "an impossible length is closed with 10",
        ImpossibleShortTorn: "an impossible length that runs past the end is closed with 10",
        TornImpossible: "a record that runs past the end is closed with 11",
    }
}

impl ReasonMistake {
    /// The mistake of the pool's meld that it is, if it is one.
    pub(super) fn in_meld(self) -> Option<Mistake> {
        match self {
            ReasonMistake::LooksGoOn => Some(Mistake::RightAfterConflict),
            ReasonMistake::DeletesAlwaysWrite => Some(Mistake::DeletesAlwaysWrite),
            _ => None,
        }
    }

    /// The mistake of the program's walk that it is, if it is one.
    fn in_walk(self) -> Option<Mistake> {
        match self {
            ReasonMistake::ImpossibleTorn => Some(Mistake::ImpossibleTorn),
            ReasonMistake::ImpossibleShortTorn => Some(Mistake::ImpossibleShortTorn),
            ReasonMistake::TornImpossible => Some(Mistake::TornRecordImpossible),
            _ => None,
        }
    }
}

/// What the program with this mistake prints: the nine numbers of R52 for each record.
pub fn lines(mistake: Option<ReasonMistake>, input: &[u8]) -> String {
    let Some((limits, log)) = limits(65_536, input) else {
        return "9\n".to_string();
    };
    let mut explainer = Explainer::new(mistake, limits);
    let walk = mistake.and_then(ReasonMistake::in_walk);
    let (mut rest, mut text) = (log, String::new());
    for position in 1.. {
        match next_part(walk, rest) {
            Next::Part(part) => {
                text += &explainer.explain(part).line(position);
                explainer.meld(part);
                rest = &rest[part.len()..];
            }
            ending => return text + ending.closing(),
        }
    }
    text
}
