//! The page form with one mistake of choice or none; what it feeds is a `Feeder`.

use reference::pages::{cut, line};
use reference::{Fed, Said};

pub use super::feeder::Feeder;
use super::record::limits;

mistakes! {
    /// A mistake that one might make in feeding a log part by part (R47).
    FeedMistake {
        LengthFromPart: "a length whose bytes lie in two parts is read from the second part",
        LengthFromCarry: "a length whose bytes lie in two parts is read from the carry",
        LengthOfPart: "the length is read from the part's first bytes, whatever is carried",
        RestLost: "the rest of a part is lost after a verdict",
        RestCarried: "the bytes behind a decided record are carried at once",
        AllAtOnce: "all records of a part are decided in one call",
        CountTrusted: "a carried count is trusted",
        CarrySizeTrusted: "a carry of more than 13,835 bytes is taken",
        CarryOfBefore: "the carry has 905 bytes",
        LengthOfBefore: "a length above 903 is impossible, as before there was version 2",
        LengthNotMost: "a length of 13,833 is impossible",
        LengthAboveTaken: "a length of 13,834 can be",
        ImpossibleNotCarried: "an impossible length may not be carried",
        ImpossibleLate: "an impossible length is said only when the log is over",
        ImpossibleNotTaken: "the bytes of an impossible length are not taken",
        ImpossibleTakesAll: "a part is taken whole with an impossible length",
        ImpossibleForgotten: "an impossible length is not left in the carry",
        ImpossibleTorn: "10 is said of an impossible length",
        ImpossibleShortTorn: "10 is said of an impossible length whose bytes are not all in",
        ImpossibleThenTorn: "11 is said once of an impossible length, and 10 to later parts",
        ImpossibleOverTorn: "10 is said of an impossible length when the log is over",
        FirstByteJudged: "11 is said of a first byte that no length begins with",
        TornEarly: "10 is said of a record that goes on in the next part",
        TornForgotten: "10 at the end of a torn log leaves nothing carried",
        TornIsEnd: "end is said though bytes are carried",
        TornImpossible: "11 is said of a torn log when it is over",
        OneByteImpossible: "11 is said of a single byte when the log is over",
        OverIgnored: "a torn log that is over asks for more",
        OverFirst: "over is looked at before the record",
        EmptyIsOver: "an empty part says that the log is over",
        UnfitFirst: "7 is said before a record is in",
        UnfitTakes: "the part is taken with 7",
        UnfitCarries: "the record is completed in the carry before 7 is said",
        DecidedTwice: "a carried record is decided twice",
        CountKept: "the carried count stays after a verdict",
        CarriedCounted: "what was carried is counted as taken",
        LastByteLate: "a record is decided only when a byte follows it",
        LastByteAlone: "a last byte that comes alone is taken for the next record's first",
        LooksLost: "the looks of a carried record are 0",
        MoreHasLooks: "the looks of the record before are told with more",
        PartDropped: "a part in the middle of a record replaces what was carried",
        EmptyDropsCarried: "an empty part forgets what was carried",
        WholeCopied: "a record that lies whole in the part is copied to the carry",
        BehindChanged: "the carry is changed behind a record that is completed in it",
        CarryCleared: "the carry is cleared after a verdict",
    }
}

impl FeedMistake {
    /// Those that the page form's lines do not show: they need a carry or a count
    /// that no call has left, an unfit pool, "over" with bytes, a call behind the one
    /// that says 11, or a look at the carry's bytes.
    pub const IN_CALLS_ONLY: &'static [FeedMistake] = &[
        FeedMistake::CountTrusted,
        FeedMistake::CarrySizeTrusted,
        FeedMistake::ImpossibleNotCarried,
        FeedMistake::ImpossibleForgotten,
        FeedMistake::ImpossibleThenTorn,
        FeedMistake::ImpossibleOverTorn,
        FeedMistake::OverFirst,
        FeedMistake::UnfitFirst,
        FeedMistake::UnfitTakes,
        FeedMistake::UnfitCarries,
        FeedMistake::WholeCopied,
        FeedMistake::BehindChanged,
        FeedMistake::CarryCleared,
    ];
}

/// What the page form with this mistake prints.
pub fn lines(mistake: Option<FeedMistake>, input: &[u8], sizes: &[usize]) -> String {
    let Some((limits, log)) = limits(1_000, input) else {
        return "9\n".to_string();
    };
    let mut feeder = Feeder::new(mistake, limits, vec![0; Feeder::carry_bytes(mistake)]);
    let mut text = String::new();
    let mut carried = 0;
    for part in cut(log, sizes) {
        let mut rest = part;
        loop {
            let fed = feeder.feed(carried, rest, false);
            text += &line(&fed);
            let stuck = fed.taken == 0 && !rest.is_empty();
            if fed.said == Said::End || stuck || refuses(&fed) {
                return text;
            }
            (rest, carried) = (&rest[fed.taken..], fed.carried);
            if rest.is_empty() {
                break;
            }
        }
    }
    text + &line(&feeder.feed(carried, &[], true))
}

/// Does it say 7, 8, 10 or 11?
fn refuses(fed: &Fed) -> bool {
    matches!(fed.said, Said::Answer(answer) if answer.number() >= 7)
}
