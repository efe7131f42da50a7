//! Frames: a length of two bytes, the lowest first, and a body of so many bytes.

/// How many bytes a length has.
const LENGTH_BYTES: usize = 2;

/// A text that a frame is put together in: room for the length, and then the body.
pub(crate) fn begin(text: &mut Vec<u8>) {
    text.clear();
    text.resize(LENGTH_BYTES, 0);
}

/// Sets the length of what stands behind it, which is at most 65,535 bytes.
pub(crate) fn finish(text: &mut [u8]) {
    let length = text.len() - LENGTH_BYTES;
    text[0] = length as u8;
    text[1] = (length >> 8) as u8;
}

/// Cuts bytes into the bodies of frames, in whatever pieces they come.
#[derive(Default)]
pub(crate) struct Cutter {
    bytes: Vec<u8>,
    at: usize,
}

impl Cutter {
    /// Takes a piece.
    pub(crate) fn feed(&mut self, piece: &[u8]) {
        self.bytes.drain(..self.at);
        self.at = 0;
        self.bytes.extend_from_slice(piece);
    }

    /// The body of the next frame, where it is whole.
    pub(crate) fn next(&mut self) -> Option<&[u8]> {
        let left = &self.bytes[self.at..];
        let length = usize::from(u16::from_le_bytes([*left.first()?, *left.get(1)?]));
        let body = self.at + LENGTH_BYTES;
        if self.bytes.len() < body + length {
            return None;
        }
        self.at = body + length;
        Some(&self.bytes[body..self.at])
    }

    /// Whether what came ends inside a frame.
    pub(crate) fn is_inside(&self) -> bool {
        self.at < self.bytes.len()
    }
}

#[cfg(test)]
mod tests {
    use super::*;

    #[test]
    fn pieces_do_not_matter() {
        let bodies: Vec<Vec<u8>> = [0, 1, 2, 300, 5].iter().map(|&length| vec![length as u8; length]).collect();
        let mut whole = Vec::new();
        for body in &bodies {
            let mut text = Vec::new();
            begin(&mut text);
            text.extend_from_slice(body);
            finish(&mut text);
            whole.extend_from_slice(&text);
        }
        for size in [1, 2, 3, 50, whole.len()] {
            let (mut cutter, mut found) = (Cutter::default(), Vec::new());
            for piece in whole.chunks(size) {
                cutter.feed(piece);
                while let Some(body) = cutter.next() {
                    found.push(body.to_vec());
                }
            }
            assert_eq!(bodies, found);
            assert!(!cutter.is_inside());
            cutter.feed(&[1]);
            assert!(cutter.next().is_none() && cutter.is_inside());
        }
    }
}
