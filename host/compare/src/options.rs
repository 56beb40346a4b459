//! The command line of `compare`.

use std::ffi::OsString;
use std::ops::Range;
use std::path::PathBuf;
use std::thread;
use std::time::{SystemTime, UNIX_EPOCH};

use crate::process::Command;
use crate::setting::Setting;

/// What to say when the command line is not understood.
pub const USAGE: &str = "\
usage: compare --program PATH [--argument WORD]... [--seeds FROM..TO | --fresh N] [--jobs J]
               [--full] [--unread] [--parts | --reasons]
       compare --input SEED [--full] [--parts | --reasons]
       compare --sizes SEED

--program PATH    the program to compare with the reference
--argument WORD   an argument that it is always given; there may be several
--seeds FROM..TO  seeds FROM to TO - 1 (default 0..2000)
--fresh N         N seeds from the clock; they are printed
--jobs J          so many programs at a time (default: one for each core)
--full            the program at full size (R46), with pools above 1,000 keys
--unread          reading fails where the input's bytes are over
--parts           the page form (R47): PROGRAM FILE, where the file has the sizes of the
                  parts that the log is fed in; not with --full or --unread
--reasons         the reasons (R50), nine numbers a record, for N up to 65,536
--input SEED      write the input of a seed to standard output instead
--sizes SEED      write the sizes of the parts that --parts cuts it into at random";

/// What is asked for.
#[derive(Clone, Debug, PartialEq, Eq)]
pub enum Task {
    /// Compare a program on these seeds.
    Compare {
        /// The program.
        program: Command,
        /// The seeds.
        seeds: Range<u64>,
        /// How many at a time.
        jobs: usize,
        /// What is compared.
        setting: Setting,
    },
    /// Write the input of a seed.
    Input(Setting, u64),
    /// Write the sizes of a seed's parts.
    Sizes(u64),
}

/// The task of these arguments; none if they are not understood.
pub fn parse(arguments: &[String]) -> Option<Task> {
    let mut program = None;
    let mut seeds = 0..2_000;
    let mut jobs = thread::available_parallelism().map_or(1, usize::from);
    let mut input = None;
    let mut sizes = None;
    let mut first = Vec::new();
    let mut setting = Setting::default();
    let mut words = arguments.iter();
    while let Some(option) = words.next() {
        match option.as_str() {
            "--full" => setting.full = true,
            "--unread" => setting.unread = true,
            "--parts" => setting.parts = true,
            "--reasons" => setting.reasons = true,
            "--program" => program = Some(PathBuf::from(words.next()?)),
            "--seeds" => seeds = range(words.next()?)?,
            "--fresh" => seeds = fresh(words.next()?.parse().ok()?),
            "--jobs" => jobs = words.next()?.parse().ok().filter(|&jobs| jobs > 0)?,
            "--argument" => first.push(OsString::from(words.next()?)),
            "--input" => input = Some(words.next()?.parse().ok()?),
            "--sizes" => sizes = Some(words.next()?.parse().ok()?),
            _ => return None,
        }
    }
    if setting.parts && (setting.full || setting.unread || setting.reasons) {
        return None;
    }
    match (program, input, sizes) {
        (Some(path), None, None) => Some(Task::Compare {
            program: Command {
                path,
                arguments: first,
            },
            seeds,
            jobs,
            setting,
        }),
        (None, Some(seed), None) => Some(Task::Input(setting, seed)),
        (None, None, Some(seed)) => Some(Task::Sizes(seed)),
        _ => None,
    }
}

/// `FROM..TO` as a range.
fn range(text: &str) -> Option<Range<u64>> {
    let (from, to) = text.split_once("..")?;
    Some(from.parse().ok()?..to.parse().ok()?)
}

/// So many seeds in a row, the first from the clock.
fn fresh(count: u64) -> Range<u64> {
    let clock = SystemTime::now().duration_since(UNIX_EPOCH);
    let from = clock.map_or(0, |since| since.as_nanos() as u64) >> 8;
    from..from.saturating_add(count)
}

#[cfg(test)]
mod tests {
    use super::{parse, Task};
    use crate::setting::Setting;

    fn arguments(line: &str) -> Option<Task> {
        let words: Vec<String> = line.split_whitespace().map(str::to_string).collect();
        parse(&words)
    }

    #[test]
    fn options_are_read() {
        let Some(Task::Compare {
            program,
            seeds,
            jobs,
            setting,
        }) = arguments("--program p --full --seeds 3..9 --jobs 2")
        else {
            panic!("not understood");
        };
        assert_eq!((program.path.to_str(), seeds, jobs), (Some("p"), 3..9, 2));
        assert!(setting.full && !setting.unread && !setting.parts);
        assert!(program.arguments.is_empty());
        let setting = Setting::default();
        assert_eq!(arguments("--input 7"), Some(Task::Input(setting, 7)));
        let unread = Setting {
            unread: true,
            ..setting
        };
        assert_eq!(
            arguments("--unread --input 7"),
            Some(Task::Input(unread, 7))
        );
    }

    #[test]
    fn options_of_the_page_form_are_read() {
        let line = "--parts --program p --argument a --argument --parts";
        let Some(Task::Compare {
            program, setting, ..
        }) = arguments(line)
        else {
            panic!("not understood");
        };
        assert_eq!(program.arguments, ["a", "--parts"]);
        assert!(setting.parts && !setting.full && !setting.unread);
        assert_eq!(arguments("--sizes 7"), Some(Task::Sizes(7)));
    }

    #[test]
    fn reasons_may_be_asked_for_at_full_size() {
        let Some(Task::Compare { setting, .. }) = arguments("--reasons --program p") else {
            panic!("not understood");
        };
        assert!(setting.reasons && !setting.full && !setting.parts);
        let full = Setting {
            full: true,
            ..setting
        };
        assert_eq!(
            arguments("--full --reasons --input 7"),
            Some(Task::Input(full, 7))
        );
    }

    #[test]
    fn fresh_seeds_are_as_many_as_asked_for() {
        let Some(Task::Compare { seeds, .. }) = arguments("--program p --fresh 12") else {
            panic!("not understood");
        };
        assert_eq!(seeds.end - seeds.start, 12);
    }

    #[test]
    fn anything_else_is_refused() {
        for line in [
            "",
            "--program",
            "--seeds 1..2",
            "--program p --seeds 3",
            "--jobs 0",
            "--program p --argument",
            "--program p --parts --full",
            "--program p --parts --unread",
            "--program p --parts --reasons",
            "--input 1 --sizes 1",
            "x y",
        ] {
            assert_eq!(arguments(line), None);
        }
    }
}
