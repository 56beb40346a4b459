//! Compares a program with the reference on logs made from seeds. On a
//! difference it prints the seed and the smallest log that still differs, in
//! hex and in words, and fails with status 1.
#![forbid(unsafe_code)]

use std::collections::BTreeMap;
use std::io::{self, Write};
use std::ops::Range;
use std::process::ExitCode;
use std::sync::atomic::{AtomicBool, AtomicU64, Ordering};
use std::sync::Mutex;
use std::thread;

use compare::check::{difference, Program};
use compare::generate;
use compare::options::{parse, Task, USAGE};
use compare::process::Command;
use compare::setting::Setting;
use compare::shrink;
use compare::trial::Trial;
use reference::pages::{self, sizes_text};
use reference::program;
use reference::reason;
use reference::words::{hex, input_words_up_to};
use reference::{Answer, Ending, Reason, Said, State, Touch};

fn main() -> ExitCode {
    let arguments: Vec<String> = std::env::args().skip(1).collect();
    match parse(&arguments) {
        Some(Task::Compare {
            program,
            seeds,
            jobs,
            setting,
        }) => compare(setting, program, seeds, jobs),
        Some(Task::Input(setting, seed)) => print(&setting.input(seed)),
        Some(Task::Sizes(seed)) => {
            let trials = generate::in_parts(seed);
            let sizes = trials.first().and_then(|trial| trial.sizes.as_deref());
            print(sizes_text(sizes.unwrap_or(&[])).as_bytes())
        }
        None => {
            eprintln!("{USAGE}");
            ExitCode::from(2)
        }
    }
}

fn print(bytes: &[u8]) -> ExitCode {
    match io::stdout().write_all(bytes) {
        Ok(()) => ExitCode::SUCCESS,
        Err(_) => ExitCode::FAILURE,
    }
}

/// How often each last word of a line was seen.
type Tally = BTreeMap<String, u64>;

/// Compares on all seeds; status 1 at a difference.
fn compare(setting: Setting, mut program: Command, seeds: Range<u64>, jobs: usize) -> ExitCode {
    let Ok(path) = program.path.canonicalize() else {
        eprintln!("compare: no program at {}", program.path.display());
        return ExitCode::from(2);
    };
    program.path = path;
    println!("seeds {}..{}", seeds.start, seeds.end);
    let program = |trial: &Trial| setting.output(&program, trial);
    let (differing, tally) = first_differing(setting, &program, seeds.clone(), jobs);
    let Some((seed, trial)) = differing else {
        for (what, count) in tally {
            println!("{count:>8} {what}");
        }
        println!(
            "no difference in {} logs",
            seeds.end.saturating_sub(seeds.start)
        );
        return ExitCode::SUCCESS;
    };
    report(setting, &program, seed, &trial);
    ExitCode::FAILURE
}

/// The lowest differing seed that was found, with what differs of it, and what
/// the logs before it had.
fn first_differing(
    setting: Setting,
    program: &Program<'_>,
    seeds: Range<u64>,
    jobs: usize,
) -> (Option<(u64, Trial)>, Tally) {
    let next = AtomicU64::new(seeds.start);
    let stop = AtomicBool::new(false);
    let found = Mutex::new((None, Tally::new()));
    let work = || {
        let mut tally = Tally::new();
        while !stop.load(Ordering::Relaxed) {
            let seed = next.fetch_add(1, Ordering::Relaxed);
            if seed >= seeds.end {
                break;
            }
            for trial in setting.trials(seed) {
                count(setting, &trial, &mut tally);
                if difference(setting, program, &trial).is_some() {
                    stop.store(true, Ordering::Relaxed);
                    let first = &mut found.lock().expect("no thread panics").0;
                    if !matches!(first, Some((other, _)) if *other < seed) {
                        *first = Some((seed, trial));
                    }
                    break;
                }
            }
        }
        let mut found = found.lock().expect("no thread panics");
        for (what, count) in tally {
            *found.1.entry(what).or_default() += count;
        }
    };
    thread::scope(|scope| {
        for _ in 0..jobs {
            scope.spawn(work);
        }
    });
    found.into_inner().expect("no thread panics")
}

/// Counts the answers of a log and how it ends, or what its calls say.
fn count(setting: Setting, trial: &Trial, tally: &mut Tally) {
    let mut add = |what: String| *tally.entry(what).or_default() += 1;
    let named = |answer: Answer| format!("{} {}", answer.number(), answer.name());
    match (
        program::run_up_to(setting.most(), &trial.input),
        &trial.sizes,
    ) {
        (Err(answer), _) => add(format!("logs {}", named(answer))),
        (Ok(run), None) => {
            for verdict in run.verdicts {
                add(format!("records {}", named(verdict.answer)));
            }
            if setting.reasons {
                reasons(&trial.input).into_iter().for_each(&mut add);
            }
            // What is not read on ends with 11 or with nothing.
            add(match (run.ending, setting.unread) {
                (Ending::Impossible, _) => format!("logs {}", named(Answer::ImpossibleLength)),
                (_, true) => "logs unread".to_string(),
                (Ending::Torn, false) => format!("logs {}", named(Answer::TornLog)),
                (Ending::End, false) => "logs end".to_string(),
            });
        }
        (Ok(run), Some(sizes)) => {
            let mut state = State::new(run.state.limits());
            for fed in pages::calls(&mut state, &pages::cut(&trial.input[8..], sizes)) {
                add(match fed.said {
                    Said::Answer(answer) => format!("calls {}", named(answer)),
                    Said::More => "calls more".to_string(),
                    Said::End => "calls end".to_string(),
                });
            }
            add("logs cut in a way".to_string());
        }
    }
}

/// What the reasons of a log tell.
fn reasons(input: &[u8]) -> Vec<String> {
    let explained = reason::run(input).map_or(Vec::new(), |run| run.verdicts);
    let told = explained.iter().filter_map(|told| match told.reason {
        Reason::Nothing => None,
        Reason::Conflict { touch, .. } => Some(match touch {
            Touch::Point(1) => "point 1",
            Touch::Point(_) => "later point",
            Touch::Scan(1) => "scan 1",
            Touch::Scan(_) => "later scan",
        }),
        Reason::TooOld { .. } => Some("lag"),
        Reason::NoRoom { .. } => Some("keys"),
    });
    told.map(|what| format!("reasons {what}")).collect()
}

/// The seed, the smallest log found that differs, and where it differs.
fn report(setting: Setting, program: &Program<'_>, seed: u64, trial: &Trial) {
    println!("seed {seed} differs; looking for a small log");
    let mut differs = |smaller: &Trial| difference(setting, program, smaller).is_some();
    let small = shrink::shrink(setting.most(), trial, &mut differs);
    println!(
        "the input in hex, {} bytes of {}:",
        small.input.len(),
        trial.input.len()
    );
    println!("{}", hex(&small.input));
    println!("in words, with the answers and the reasons of the reference:");
    print!("{}", input_words_up_to(setting.most(), &small.input));
    if let Some(sizes) = &small.sizes {
        println!("the sizes of the parts: {}", sizes_text(sizes).trim_end());
        println!("the calls by the reference:");
        print!("{}", setting.lines(&small));
    }
    match difference(setting, program, &small) {
        Some(found) => {
            println!("line {} is to be {}", found.line, found.expected);
            println!("the program has  {}", found.found);
        }
        None => println!("the small log does not differ every time it is run"),
    }
}
