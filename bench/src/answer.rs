//! The plain implementation's answers as text, for comparison with the oracle: `;` stands for a line feed.

use crate::calls::{refusal, rule, written, ROOM};
use crate::hex::to_hex;
use crate::plain;

fn bytes_of(call: impl Fn(&[u8], &mut [u8]) -> u64, file: &[u8]) -> (u64, Vec<u8>) {
    let mut out = [0; ROOM];
    let answer = call(file, &mut out);
    (answer, out[..written(answer)].to_vec())
}

/// `loads` or `refused K`.
pub fn load(file: &[u8]) -> String {
    match refusal(plain::load(file)) {
        0 => "loads".into(),
        cause => format!("refused {cause}"),
    }
}

/// Bytes in hexadecimal or `refused K`.
fn bytes_or_refusal((answer, bytes): (u64, Vec<u8>)) -> String {
    match refusal(answer) {
        0 => to_hex(&bytes),
        cause => format!("refused {cause}"),
    }
}

/// The translation in hexadecimal or `refused K`.
pub fn translate(file: &[u8]) -> String {
    bytes_or_refusal(bytes_of(plain::translate, file))
}

/// The page in hexadecimal or `refused K`.
pub fn page(file: &[u8], ring: &[u8]) -> String {
    bytes_or_refusal(bytes_of(|file, out| plain::page(file, ring, out), file))
}

/// What the judge prints.
pub fn judge(file: &[u8]) -> String {
    let (_, bytes) = bytes_of(plain::judge, file);
    String::from_utf8_lossy(&bytes).replace('\n', ";")
}

/// The same lines, made from the three verdict calls and the translation.
pub fn verdicts(file: &[u8]) -> String {
    let (imm, imm_shown) = bytes_of(plain::imm, file);
    let (tso, tso_shown) = bytes_of(plain::tso, file);
    match (refusal(imm), refusal(tso)) {
        (0, 0) => {
            let (_, chip) = bytes_of(plain::translate, file);
            line("source", imm, &imm_shown) + &chip_line(&chip) + &line("tso", tso, &tso_shown)
        }
        (11, 11) => chip_line(file),
        (cause, same) if cause == same => format!("refused {cause};"),
        (cause, other) => format!("refused {cause} and {other};"),
    }
}

fn chip_line(file: &[u8]) -> String {
    let (answer, shown) = bytes_of(plain::armv8, file);
    line("chip", answer, &shown)
}

fn line(model: &str, answer: u64, shown: &[u8]) -> String {
    let word = match (refusal(answer), rule(answer)) {
        (0, 0) => format!("{model} allowed"),
        (0, rule) => format!("{model} broken {rule}"),
        (cause, _) => format!("refused {cause}"),
    };
    let events: String = shown.iter().map(|e| format!(" {e}")).collect();
    format!("{word}{events};")
}
