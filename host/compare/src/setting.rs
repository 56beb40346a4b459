//! What is compared: the program of R41, that of R46, the page form (R47) or the reasons
//! (R50), on inputs that end or on inputs whose reading fails.

use reference::log::parts;
use reference::pages;
use reference::program::{self, split_up_to, FULL_N, MOST_N};
use reference::reason;

use crate::generate;
use crate::process::{self, Command};
use crate::trial::Trial;

/// The most bytes of whole records in an input whose reading fails: a socket
/// holds them all.
const HELD: usize = 60_000;

/// The most bytes behind them: a record of version 1 and more, and less than a buffer.
const TAIL: usize = 2_000;

/// What is compared.
#[derive(Clone, Copy, Debug, Default, PartialEq, Eq)]
pub struct Setting {
    /// Is it the program at full size?
    pub full: bool,
    /// Does reading fail where the input's bytes are over?
    pub unread: bool,
    /// Is it the page form, the log in parts?
    pub parts: bool,
    /// Are the reasons told, nine numbers a record?
    pub reasons: bool,
}

impl Setting {
    /// The largest N of the program.
    pub fn most(self) -> u32 {
        if self.full || self.reasons {
            FULL_N
        } else {
            MOST_N
        }
    }

    /// What a seed gives to try: one input, or its log cut in one way or more.
    pub fn trials(self, seed: u64) -> Vec<Trial> {
        if self.parts {
            generate::in_parts(seed)
        } else {
            vec![Trial::whole(self.input(seed))]
        }
    }

    /// The input of a seed.
    pub fn input(self, seed: u64) -> Vec<u8> {
        let input = if self.full {
            generate::full_input(seed)
        } else if self.parts {
            generate::paged_input(seed)
        } else if self.reasons {
            generate::reasoned_input(seed)
        } else {
            generate::input(seed)
        };
        if self.unread {
            self.held(&input)
        } else {
            input
        }
    }

    /// What the reference prints.
    pub fn lines(self, trial: &Trial) -> String {
        match &trial.sizes {
            Some(sizes) => pages::lines(&trial.input, sizes),
            None if self.reasons && self.unread => reason::lines_unread(&trial.input),
            None if self.reasons => reason::lines(&trial.input),
            None if self.unread => program::lines_unread(self.most(), &trial.input),
            None => program::lines_up_to(self.most(), &trial.input),
        }
    }

    /// What a program prints.
    pub fn output(self, program: &Command, trial: &Trial) -> Result<String, String> {
        match &trial.sizes {
            Some(sizes) => process::output_in_parts(program, &trial.input, sizes),
            None if self.unread => process::output_unread(program, &trial.input),
            None => process::output(program, &trial.input),
        }
    }

    /// The input cut down to what a socket holds, and behind its last record to
    /// less than a buffer, so that the program has to read on.
    fn held(self, input: &[u8]) -> Vec<u8> {
        let Ok((_, log)) = split_up_to(self.most(), input) else {
            return input.to_vec();
        };
        let (found, tail) = parts(log);
        let mut bytes = input[..8].to_vec();
        for part in &found {
            if bytes.len() + part.len() > HELD {
                return bytes;
            }
            bytes.extend_from_slice(part);
        }
        bytes.extend_from_slice(&tail[..tail.len().min(TAIL)]);
        bytes
    }
}
