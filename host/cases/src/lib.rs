//! The cases of the rules' edges: `ideas` has the small ones of the
//! conformance set, one idea each; `edges` has more for the gate; `sequence`
//! is the format in which the gate takes them all as one input.
#![forbid(unsafe_code)]

pub mod conformance;
pub mod edges;
pub mod ideas;
pub mod sequence;

/// An input of the program with a name and what it is about.
#[derive(Clone, Debug)]
pub struct Case {
    /// Short, in lower case with hyphens.
    pub name: String,
    /// What a program gets wrong that fails here.
    pub catches: String,
    /// N, Z and a log, or what stands in their place.
    pub input: Vec<u8>,
}

/// A case of the page form (R47): an input whose log is fed in parts.
#[derive(Clone, Debug)]
pub struct InParts {
    /// The input, its name and what it is about.
    pub case: Case,
    /// The sizes of the parts.
    pub sizes: Vec<usize>,
}

/// Every case of the gate, in a fixed order; what is new comes last.
pub fn all() -> Vec<Case> {
    [
        ideas::first(),
        edges::all(),
        ideas::log::endings(),
        ideas::larger::all(),
        edges::larger(),
        ideas::nothing::all(),
        edges::nothing(),
        ideas::joined::all(),
    ]
    .concat()
}
