//! The comparison of a program's lines with the reference's.

use crate::setting::Setting;
use crate::trial::Trial;

/// A program: what it is tried on to what it prints, or why it prints nothing.
pub type Program<'a> = dyn Fn(&Trial) -> Result<String, String> + Sync + 'a;

/// The first line that differs.
#[derive(Clone, Debug, PartialEq, Eq)]
pub struct Difference {
    /// The line's number, from 1.
    pub line: usize,
    /// What the reference prints there.
    pub expected: String,
    /// What the program prints there, or what became of it.
    pub found: String,
}

/// The first difference between the program and the reference on this trial.
pub fn difference(setting: Setting, program: &Program<'_>, trial: &Trial) -> Option<Difference> {
    let expected = setting.lines(trial);
    match program(trial) {
        Ok(found) => first_difference(&expected, &found),
        Err(found) => Some(Difference {
            line: 1,
            expected: quoted(expected.split('\n').next()),
            found,
        }),
    }
}

/// The first line that differs; a missing line end at the very end is seen as
/// a missing empty line.
pub fn first_difference(expected: &str, found: &str) -> Option<Difference> {
    let mut left = expected.split('\n');
    let mut right = found.split('\n');
    for line in 1.. {
        let two = (left.next(), right.next());
        if two == (None, None) {
            break;
        }
        if two.0 != two.1 {
            return Some(Difference {
                line,
                expected: quoted(two.0),
                found: quoted(two.1),
            });
        }
    }
    None
}

/// A line in quotes, or "nothing".
fn quoted(line: Option<&str>) -> String {
    line.map_or("nothing".to_string(), |line| format!("`{line}`"))
}

#[cfg(test)]
mod tests {
    use super::{first_difference, Difference};

    #[test]
    fn equal_text_has_no_difference() {
        assert_eq!(first_difference("1 0 0\nend\n", "1 0 0\nend\n"), None);
    }

    #[test]
    fn other_missing_and_extra_lines_are_differences() {
        let texts = [
            "1 0 1\nend\n",
            "1 0 0\n",
            "1 0 0\nend\n10\n",
            "1 0 0\nend",
            "",
        ];
        let lines = texts.map(|found| {
            let difference = first_difference("1 0 0\nend\n", found);
            difference.map(|Difference { line, .. }| line)
        });
        assert_eq!(lines, [Some(1), Some(2), Some(3), Some(3), Some(1)]);
    }
}
