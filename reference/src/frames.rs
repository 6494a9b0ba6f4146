//! Pieces of an input, each of which stands after a byte that says its length.

/// One piece; `whole` is false if the input ended before as many bytes as were announced.
#[derive(Clone, Copy, Debug, PartialEq, Eq)]
pub struct Frame<'a> {
    pub bytes: &'a [u8],
    pub whole: bool,
}

/// The pieces of an input in their order.
pub struct Frames<'a> {
    rest: &'a [u8],
}

impl<'a> Frames<'a> {
    /// Starts at the first length byte.
    pub fn of(input: &'a [u8]) -> Self {
        Frames { rest: input }
    }
}

impl<'a> Iterator for Frames<'a> {
    type Item = Frame<'a>;

    /// Takes the next length byte and as many of its bytes as are there.
    fn next(&mut self) -> Option<Frame<'a>> {
        let (&announced, after) = self.rest.split_first()?;
        let announced = usize::from(announced);
        let (bytes, rest) = after.split_at(announced.min(after.len()));
        self.rest = rest;
        Some(Frame {
            bytes,
            whole: bytes.len() == announced,
        })
    }
}

/// Appends a piece with its length byte; a piece has at most 255 bytes.
pub fn push_frame(out: &mut Vec<u8>, bytes: &[u8]) {
    debug_assert!(bytes.len() <= usize::from(u8::MAX));
    out.push(bytes.len() as u8);
    out.extend_from_slice(bytes);
}

/// Reads a number of any width whose low byte comes first.
pub fn little_endian(bytes: &[u8]) -> u64 {
    bytes
        .iter()
        .rev()
        .fold(0, |number, &byte| number << 8 | u64::from(byte))
}

#[cfg(test)]
mod tests {
    use super::*;

    #[test]
    fn pieces_are_whole_or_cut() {
        let pieces: Vec<Frame> = Frames::of(&[2, 7, 8, 0, 3, 9]).collect();
        let frame = |bytes, whole| Frame { bytes, whole };
        assert_eq!(
            pieces,
            [
                frame(&[7, 8][..], true),
                frame(&[], true),
                frame(&[9], false)
            ]
        );
    }

    #[test]
    fn low_byte_comes_first() {
        assert_eq!(little_endian(&[1, 2]), 513);
        assert_eq!(little_endian(&[0, 0, 0, 0, 0, 0, 1, 0]), 1 << 48);
    }
}
