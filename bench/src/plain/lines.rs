//! The lines that the judge prints. Assumes numbers below 100.

use super::verdict::Verdict;

/// Bytes that are enough for a line: a model, a verdict and at most 64 events.
const LINE: usize = 320;

/// Room for three lines.
pub struct Text {
    bytes: [u8; 3 * LINE],
    length: usize,
}

impl Text {
    pub fn new() -> Text {
        Text { bytes: [0; 3 * LINE], length: 0 }
    }

    pub fn bytes(&self) -> &[u8] {
        &self.bytes[..self.length]
    }

    pub fn refusal(&mut self, cause: u8) {
        self.put(b"refused");
        self.number(cause);
        self.put(b"\n");
    }

    pub fn verdict(&mut self, model: &[u8], verdict: &Verdict) {
        self.put(model);
        if verdict.rule == 0 {
            self.put(b" allowed");
        } else {
            self.put(b" broken");
            self.number(verdict.rule);
        }
        for &e in verdict.shown() {
            self.number(e);
        }
        self.put(b"\n");
    }

    fn put(&mut self, bytes: &[u8]) {
        let end = self.length + bytes.len();
        self.bytes[self.length..end].copy_from_slice(bytes);
        self.length = end;
    }

    /// A space and a number below 100 in decimal.
    fn number(&mut self, n: u8) {
        if n < 10 {
            self.put(&[b' ', b'0' + n]);
        } else {
            self.put(&[b' ', b'0' + n / 10, b'0' + n % 10]);
        }
    }
}
