//! The format of the gate's input and of what is expected of it.
//!
//! Input: a sequence of cases until the end, each 4 bytes big-endian length L,
//! then L bytes that are an input of the program (N, Z, log, or what stands in
//! their place). Expected output: for each case a line `case K`, K from 1 in
//! decimal, then the lines that the program prints for it.

use reference::program;

/// The cases' inputs as one sequence.
pub fn write<'a>(inputs: impl IntoIterator<Item = &'a [u8]>) -> Vec<u8> {
    let mut bytes = Vec::new();
    for input in inputs {
        let length = u32::try_from(input.len()).expect("cases are small");
        bytes.extend(length.to_be_bytes());
        bytes.extend(input);
    }
    bytes
}

/// The inputs of a sequence; none if it breaks off inside a case.
pub fn read(mut rest: &[u8]) -> Option<Vec<&[u8]>> {
    let mut inputs = Vec::new();
    while !rest.is_empty() {
        let (length, behind) = rest.split_first_chunk::<4>()?;
        let length = usize::try_from(u32::from_be_bytes(*length)).ok()?;
        inputs.push(behind.get(..length)?);
        rest = &behind[length..];
    }
    Some(inputs)
}

/// What is to be printed for these inputs, by the reference.
pub fn expect(inputs: &[&[u8]]) -> String {
    let case =
        |(index, input): (usize, &&[u8])| format!("case {}\n{}", index + 1, program::lines(input));
    inputs.iter().enumerate().map(case).collect()
}

#[cfg(test)]
mod tests {
    use super::{expect, read, write};

    #[test]
    fn a_sequence_reads_back() {
        let inputs: [&[u8]; 3] = [&[], &[1, 2, 3], &[0; 8]];
        let bytes = write(inputs);
        assert_eq!(bytes[..7], [0, 0, 0, 0, 0, 0, 0]);
        assert_eq!(read(&bytes).unwrap(), inputs);
        assert_eq!(read(&bytes[..bytes.len() - 1]), None);
        assert_eq!(read(&[]).unwrap().len(), 0);
    }

    #[test]
    fn cases_count_from_1() {
        let limits = [0, 0, 0, 3, 0, 0, 0, 4];
        assert_eq!(expect(&[&[], &limits]), "case 1\n9\ncase 2\nend\n");
    }
}
