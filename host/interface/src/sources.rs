//! The files of a repository that say the interface.

use std::fs;
use std::path::Path;

use crate::{answers, compare_answers, compare_functions, functions, sizes, versions};

/// The texts that have to agree.
#[derive(Clone, Debug)]
pub struct Sources {
    /// Every file of `crates/abi_c/src`, which exports the functions, and of
    /// `crates/abi/src`, which has the numbers that they tell.
    pub rattle: String,
    /// Every file of `crates/record_abi_c/src`, which exports some of these functions.
    pub rattle_records: String,
    /// `include/emuparasol.h`.
    pub header: String,
    /// `host/emuparasol/src/declared.rs`.
    pub declared: String,
    /// `crates/record/src/answer.rt`.
    pub rattle_answers: String,
    /// `host/emuparasol/src/answer.rs`.
    pub rust_answers: String,
    /// `host/Cargo.toml`, which has the version.
    pub cargo: String,
    /// `crates/record/src/limits.rt`, which has the sizes of a record.
    pub rattle_limits: String,
    /// Every file of `crates/pages/src`, which has the size of a carry.
    pub rattle_pages: String,
    /// `host/emuparasol/src/record.rs` and `feed.rs`, which have the sizes.
    pub rust_sizes: String,
}

impl Sources {
    /// The files of the repository at `top`.
    pub fn read(top: &Path) -> Result<Sources, String> {
        let text = |path: &str| {
            fs::read_to_string(top.join(path)).map_err(|error| format!("{path}: {error}"))
        };
        Ok(Sources {
            rattle: sources_below(&top.join("crates/abi_c/src"))?
                + &sources_below(&top.join("crates/abi/src"))?,
            rattle_records: sources_below(&top.join("crates/record_abi_c/src"))?,
            header: text("include/emuparasol.h")?,
            declared: text("host/emuparasol/src/declared.rs")?,
            rattle_answers: text("crates/record/src/answer.rt")?,
            rust_answers: text("host/emuparasol/src/answer.rs")?,
            cargo: text("host/Cargo.toml")?,
            rattle_limits: text("crates/record/src/limits.rt")?,
            rattle_pages: sources_below(&top.join("crates/pages/src"))?,
            rust_sizes: text("host/emuparasol/src/record.rs")?
                + &text("host/emuparasol/src/feed.rs")?,
        })
    }

    /// Every difference, a line each; how many functions and answers there are.
    pub fn differences(&self) -> Result<(Vec<String>, usize, usize), String> {
        let rattle = functions::of_rattle(&self.rattle)?;
        let records = functions::of_rattle(&self.rattle_records)?;
        let header = functions::of_c(&self.header)?;
        let declared = functions::of_rust(&self.declared)?;
        let answers = answers::of_rattle(&self.rattle_answers)?;
        let header_answers = answers::of_c(&self.header)?;
        let header_names = answers::of_c_names(&self.header)?;
        let verdicts = answers::of_rust_verdicts(&self.rust_answers)?;
        let errors = answers::of_rust_errors(&self.rust_answers)?;
        let proved = "the proved source";
        let mut found = compare_functions(proved, &rattle, "the header", &header);
        // The record part alone has no more functions than the whole, and the same.
        let shared: Vec<_> = rattle
            .iter()
            .filter(|it| records.iter().any(|other| other.name == it.name))
            .cloned()
            .collect();
        found.extend(compare_functions(
            proved,
            &shared,
            "the record part alone",
            &records,
        ));
        found.extend(compare_functions(
            proved,
            &rattle,
            "the Rust declarations",
            &declared,
        ));
        found.extend(compare_answers(
            proved,
            &answers,
            "the header",
            &header_answers,
        ));
        found.extend(compare_answers(
            proved,
            &answers,
            "emuparasol_answer_name",
            &header_names,
        ));
        let happened = answers::of_bytes(&self.rattle)?;
        for (theirs, numbers) in [
            ("the header", answers::of_c_happened(&self.header)?),
            ("the Rust declarations", answers::of_bytes(&self.declared)?),
        ] {
            found.extend(compare_answers(proved, &happened, theirs, &numbers));
        }
        let sizes = sizes::of_rattle(&self.rattle_limits, &self.rattle_pages)?;
        for (theirs, others) in [
            ("the header", sizes::of_c(&self.header)?),
            ("the Rust crate", sizes::of_rust(&self.rust_sizes)?),
        ] {
            found.extend(sizes::compare(proved, &sizes, theirs, &others));
        }
        found.extend(versions::compare(&self.header, &self.cargo)?);
        // 0 to 5 are verdicts, and all but 0 are errors.
        for (theirs, range, cases) in [
            ("the Rust verdicts", 0..=5, verdicts),
            ("the Rust errors", 1..=u8::MAX, errors),
        ] {
            let all = answers.iter().filter(|it| range.contains(&it.number));
            let all: Vec<_> = all.cloned().collect();
            found.extend(compare_answers(proved, &all, theirs, &cases));
        }
        Ok((found, rattle.len(), answers.len()))
    }
}

/// Every Rattle file of a folder, one behind the other.
fn sources_below(folder: &Path) -> Result<String, String> {
    let problem = |error: std::io::Error| format!("{}: {error}", folder.display());
    let mut text = String::new();
    for entry in fs::read_dir(folder).map_err(problem)? {
        let path = entry.map_err(problem)?.path();
        if path.is_dir() {
            text += &sources_below(&path)?;
        } else if path.extension().is_some_and(|it| it == "rt") {
            text += &fs::read_to_string(&path).map_err(problem)?;
            text.push('\n');
        }
    }
    Ok(text)
}
