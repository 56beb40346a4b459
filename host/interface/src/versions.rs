//! The version: the header's macros and the Rust crates' `version`.

use crate::between;

/// A line if the header and Cargo.toml do not say the same version.
pub fn compare(header: &str, cargo: &str) -> Result<Option<String>, String> {
    let rust = between(cargo, "\nversion = \"", "\"").ok_or("no version in Cargo.toml")?;
    let whole = between(header, "#define EMUPARASOL_VERSION \"", "\"").ok_or("no version")?;
    let mut parts = Vec::new();
    for part in ["MAJOR", "MINOR", "PATCH"] {
        let open = format!("#define EMUPARASOL_VERSION_{part} ");
        parts.push(between(header, &open, "\n").ok_or(open)?);
    }
    let numbers = parts.join(".");
    let same = whole == rust && numbers == rust;
    let line = format!("version: {whole} and {numbers} in the header, {rust} in Cargo.toml");
    Ok((!same).then_some(line))
}
