//! What a program is tried on: an input, and for the page form the sizes of the
//! parts that its log is cut into.

/// An input of the program, with sizes of parts or without.
#[derive(Clone, Debug, PartialEq, Eq)]
pub struct Trial {
    /// N, Z and a log, or what stands in their place.
    pub input: Vec<u8>,
    /// The sizes of the parts, where it is the page form that is tried.
    pub sizes: Option<Vec<usize>>,
}

impl Trial {
    /// The log whole.
    pub fn whole(input: Vec<u8>) -> Trial {
        Trial { input, sizes: None }
    }

    /// The log in parts of these sizes.
    pub fn in_parts(input: Vec<u8>, sizes: Vec<usize>) -> Trial {
        let sizes = Some(sizes);
        Trial { input, sizes }
    }
}
