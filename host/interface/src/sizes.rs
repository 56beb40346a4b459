//! The sizes: of records, of lists, and of a carry.

use crate::{between, without_comments};

/// A size's name, as the Rust crate has it, and the size.
#[derive(Clone, Debug, PartialEq, Eq)]
pub struct Size {
    /// Words in capitals, joined by `_`.
    pub name: String,
    /// Bytes, points or scans.
    pub size: u64,
}

/// The header's `#define EMUPARASOL_NAME SIZE`, without their prefix; those of the
/// version and those that ask for something are no sizes.
pub fn of_c(text: &str) -> Result<Vec<Size>, String> {
    let text = without_comments(text);
    let mut found = Vec::new();
    for line in text.lines() {
        let Some(defined) = line.strip_prefix("#define EMUPARASOL_") else {
            continue;
        };
        let (name, value) = defined.split_once(' ').unwrap_or((defined, ""));
        if name.starts_with("VERSION") || name.contains('(') || value.is_empty() {
            continue;
        }
        let value = value.strip_prefix("EMUPARASOL_").unwrap_or(value);
        push(&mut found, name, value)?;
    }
    Ok(found)
}

/// A source's `pub const NAME: usize = SIZE;`, in Rust or in Rattle.
pub fn of_rust(text: &str) -> Result<Vec<Size>, String> {
    let text = without_comments(text);
    let mut found = Vec::new();
    for part in text.split("pub const ").skip(1) {
        let Some((name, rest)) = part.split_once(':') else {
            continue;
        };
        let Some(rest) = rest.strip_prefix(" usize = ") else {
            continue;
        };
        let (value, _) = rest.split_once(';').ok_or(part)?;
        push(&mut found, name, value)?;
    }
    Ok(found)
}

/// The same sizes by the proved source: `limits` has those of a record, and `pages`
/// says which of them a carry has to have.
pub fn of_rattle(limits: &str, pages: &str) -> Result<Vec<Size>, String> {
    let known = of_rust(limits)?;
    let of = |name: &str| known.iter().find(|it| it.name == name).map(|it| it.size);
    let pages = without_comments(pages);
    let carry = between(&pages, "if carry.len() != ", " ").ok_or("no size of a carry")?;
    let least = of("MIN_LENGTH").map(|length| length + 2);
    let mut found = Vec::new();
    for (name, size) in [
        ("LEAST_RECORD", least),
        ("MOST_RECORD", of("MAX_SIZE")),
        ("MOST_POINTS", of("MAX_POINTS")),
        ("MOST_SCANS", of("MAX_SCANS")),
        ("CARRY_BYTES", of(carry)),
    ] {
        let size = size.ok_or(format!("no {name} in the proved source"))?;
        found.push(Size {
            name: name.to_string(),
            size,
        });
    }
    Ok(found)
}

/// A value in decimal, or the name of a size before it.
fn push(found: &mut Vec<Size>, name: &str, value: &str) -> Result<(), String> {
    let named = found.iter().find(|it| it.name == value).map(|it| it.size);
    let size = match value.replace('_', "").parse() {
        Ok(size) => size,
        Err(_) => named.ok_or(format!("{name}: {value}"))?,
    };
    found.push(Size {
        name: name.to_string(),
        size,
    });
    Ok(())
}

/// Where two lists of sizes differ, a line each.
pub fn compare(ours: &str, one: &[Size], theirs: &str, other: &[Size]) -> Vec<String> {
    let mut found = Vec::new();
    for (list, from, rest, to) in [(one, ours, other, theirs), (other, theirs, one, ours)] {
        for size in list.iter().filter(|&size| !rest.contains(size)) {
            let Size { name, size } = size;
            found.push(format!("{name} = {size}: in {from}, not in {to}"));
        }
    }
    found
}
