//! Functions, in the shape in which C sees them.

use crate::{between, without_comments};

/// A parameter as C sees it.
#[derive(Clone, Debug, PartialEq, Eq)]
pub struct Parameter {
    /// Its name.
    pub name: String,
    /// Its type in Rust's words: `u32`, `*const u8`, `*mut u64`.
    pub kind: String,
}

/// A function as C sees it: a slice is two parameters, `NAME` and `NAME_length`.
#[derive(Clone, Debug, PartialEq, Eq)]
pub struct Function {
    /// Its name.
    pub name: String,
    /// Its parameters in order.
    pub parameters: Vec<Parameter>,
    /// The type of its answer.
    pub answer: String,
}

/// The functions that a Rattle source exports: marked `#[unsafe(no_mangle)]`, `pub extern "C"`.
pub fn of_rattle(text: &str) -> Result<Vec<Function>, String> {
    let text = without_comments(text);
    let mut functions = Vec::new();
    for part in text.split("#[unsafe(no_mangle)]").skip(1) {
        let head = part
            .trim_start()
            .strip_prefix("pub extern \"C\" fn ")
            .ok_or("#[unsafe(no_mangle)] before something that is not 'pub extern \"C\" fn'")?;
        functions.push(rust_function(head, flat_rattle)?);
    }
    Ok(functions)
}

/// The functions that Rust's `extern "C"` block declares.
pub fn of_rust(text: &str) -> Result<Vec<Function>, String> {
    let text = without_comments(text);
    let block = between(&text, "extern \"C\" {", "\n}").ok_or("no extern \"C\" block")?;
    let parts = block.split("pub fn ").skip(1);
    parts
        .map(|head| rust_function(head, |name, kind| Ok(vec![parameter(name, kind)])))
        .collect()
}

/// The functions that a C header declares; those that it defines itself, from a line
/// that begins with `static inline` to one that is `}`, are no part of the library.
pub fn of_c(text: &str) -> Result<Vec<Function>, String> {
    let mut functions = Vec::new();
    let mut declared = without_comments(text);
    while let Some(from) = declared.find("\nstatic inline ") {
        let end = declared[from..].find("\n}\n").ok_or("an open function")?;
        declared.replace_range(from..from + end + 3, "");
    }
    let lines: Vec<String> = declared
        .lines()
        .filter(|line| !line.trim_start().starts_with('#'))
        .map(str::to_string)
        .collect();
    for statement in lines.join(" ").split(';') {
        let Some((head, list)) = statement.split_once('(') else {
            continue;
        };
        let list = list.trim().strip_suffix(')').ok_or(statement)?;
        let head = head.rsplit(['{', '}']).next().unwrap_or(head);
        let declared = c_parameter(head)?;
        functions.push(Function {
            name: declared.name,
            answer: declared.kind,
            parameters: list.split(',').map(c_parameter).collect::<Result<_, _>>()?,
        });
    }
    Ok(functions)
}

/// `NAME(LIST) -> ANSWER` and whatever follows.
fn rust_function(
    head: &str,
    flat: impl Fn(&str, &str) -> Result<Vec<Parameter>, String>,
) -> Result<Function, String> {
    let (name, rest) = head.split_once('(').ok_or(head)?;
    let name = name.split('<').next().unwrap_or(name);
    let (list, rest) = rest.split_once(')').ok_or(head)?;
    let answer = rest.trim_start().strip_prefix("->").ok_or(head)?;
    let word = |c: char| !c.is_ascii_alphanumeric();
    let mut parameters = Vec::new();
    for one in list.split(',').filter(|one| !one.trim().is_empty()) {
        let (name, kind) = one.split_once(':').ok_or(one)?;
        parameters.extend(flat(name.trim(), kind.trim())?);
    }
    Ok(Function {
        name: name.trim().to_string(),
        parameters,
        answer: answer
            .trim_start()
            .split(word)
            .next()
            .unwrap_or_default()
            .into(),
    })
}

/// A Rattle parameter as C sees it; a lifetime is nothing to C.
fn flat_rattle(name: &str, kind: &str) -> Result<Vec<Parameter>, String> {
    let Some(lent) = kind.strip_prefix('&') else {
        return Ok(vec![parameter(name, number(kind)?)]);
    };
    let lent = match lent.strip_prefix('\'') {
        Some(timed) => timed.split_once(' ').ok_or(kind)?.1,
        None => lent,
    };
    let (pointer, lent) = match lent.strip_prefix("mut ") {
        Some(lent) => ("*mut", lent),
        None => ("*const", lent),
    };
    let element = lent.strip_prefix('[').and_then(|it| it.strip_suffix(']'));
    let pointer = format!("{pointer} {}", number(element.unwrap_or(lent))?);
    let mut flat = vec![parameter(name, &pointer)];
    if element.is_some() {
        flat.push(parameter(&format!("{name}_length"), "u64"));
    }
    Ok(flat)
}

/// A type that is a number, or none of this interface's. A place or a length is a
/// 64-bit number in the proved code, whatever processor it is compiled for.
fn number(kind: &str) -> Result<&str, String> {
    match kind {
        "usize" => Ok("u64"),
        "u8" | "u32" | "u64" | "bool" => Ok(kind),
        _ => Err(format!("a type that this interface does not use: {kind}")),
    }
}

/// A C declaration `TYPE NAME` or `TYPE *NAME`.
fn c_parameter(text: &str) -> Result<Parameter, String> {
    let text = text.replace('*', " * ");
    let words: Vec<&str> = text.split_whitespace().collect();
    let (name, before) = words.split_last().ok_or("an empty declaration")?;
    let (prefix, kind) = match before {
        [kind] => ("", kind),
        ["const", kind, "*"] => ("*const ", kind),
        [kind, "*"] => ("*mut ", kind),
        _ => return Err(format!("a form that this interface does not use: {text}")),
    };
    let kind = match *kind {
        "uint8_t" => "u8",
        "uint32_t" => "u32",
        "uint64_t" => "u64",
        "bool" => "bool",
        other => return Err(format!("a type that this interface does not use: {other}")),
    };
    Ok(parameter(name, &format!("{prefix}{kind}")))
}

fn parameter(name: &str, kind: &str) -> Parameter {
    Parameter {
        name: name.to_string(),
        kind: kind.to_string(),
    }
}

/// Where two lists of functions differ, a line each.
pub fn compare_functions(
    ours: &str,
    one: &[Function],
    theirs: &str,
    other: &[Function],
) -> Vec<String> {
    let mut found = Vec::new();
    for function in one {
        match other.iter().find(|it| it.name == function.name) {
            None => found.push(format!("{}: in {ours}, not in {theirs}", function.name)),
            Some(same) if same == function => {}
            Some(same) => found.push(format!(
                "{}: {ours} says {}, {theirs} says {}",
                function.name,
                function.words(),
                same.words()
            )),
        }
    }
    for function in other {
        if !one.iter().any(|it| it.name == function.name) {
            found.push(format!("{}: in {theirs}, not in {ours}", function.name));
        }
    }
    found
}

impl Function {
    /// Parameters and answer on a line.
    fn words(&self) -> String {
        let list: Vec<String> = self
            .parameters
            .iter()
            .map(|it| format!("{}: {}", it.name, it.kind))
            .collect();
        format!("({}) -> {}", list.join(", "), self.answer)
    }
}
