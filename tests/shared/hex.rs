//! Files, and rings behind them, as lines of hexadecimal digits. A module of the oracle, whose library the benchmark uses, and of the batch driver.

pub fn to_hex(file: &[u8]) -> String {
    file.iter().map(|b| format!("{b:02x}")).collect()
}

/// The bytes of a line of hexadecimal digits, or nothing if it is none.
pub fn from_hex(line: &str) -> Option<Vec<u8>> {
    let digits: Option<Vec<u32>> = line.chars().map(|c| c.to_digit(16)).collect();
    let digits = digits?;
    if digits.len() % 2 != 0 {
        return None;
    }
    Some(digits.chunks(2).map(|d| (16 * d[0] + d[1]) as u8).collect())
}

/// The bytes of a line FILE<TAB>RING, or nothing if it is none.
pub fn with_ring(line: &str) -> Option<(Vec<u8>, Vec<u8>)> {
    let (file, ring) = line.split_once('\t')?;
    Some((from_hex(file)?, from_hex(ring)?))
}
