//! The conformance set: small logs, one idea each, by section of docs/RULES.md.
//! The snapshot read little-endian comes first, joined records last. Module `parts` has those of the page form, module `reason` those for which the reasons matter.

mod conflict;
mod easy;
pub mod joined;
pub mod larger;
mod limits;
pub mod log;
mod looks;
pub mod nothing;
pub mod parts;
pub mod reason;
mod record;
mod room;
mod zone;

use reference::program::join;
use reference::table::log as bytes_of;
use reference::Record;

use crate::Case;

/// Every idea of the program.
pub fn all() -> Vec<Case> {
    [
        first(),
        log::endings(),
        larger::all(),
        nothing::all(),
        joined::all(),
    ]
    .concat()
}

/// Those that have the first numbers, in the order of the files.
pub fn first() -> Vec<Case> {
    [
        easy::all(),
        zone::all(),
        conflict::all(),
        room::all(),
        looks::all(),
        record::all(),
        log::all(),
        limits::all(),
    ]
    .concat()
}

/// A case of an input.
fn case(name: &str, catches: &str, input: Vec<u8>) -> Case {
    Case {
        name: name.to_string(),
        catches: catches.to_string(),
        input,
    }
}

/// A case of limits and records.
fn melds(name: &str, catches: &str, (n, z): (u32, u32), records: &[Record]) -> Case {
    case(name, catches, join(n, z, &bytes_of(records)))
}

/// A case of limits and bytes, piece by piece.
fn pieces(name: &str, catches: &str, (n, z): (u32, u32), pieces: &[&[u8]]) -> Case {
    case(name, catches, join(n, z, &pieces.concat()))
}
