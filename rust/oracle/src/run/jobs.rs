//! What the two customers' jobs owe for a table file (docs/JOBS.md), from the crate's text. Their settings are named here, so
//! that no change of the default moves it.

use super::print;
use crate::settings::Settings;

/// The largest prime below 2^56.
const MODULUS: u128 = (1 << 56) - 5;

/// The archive exporter's output.
pub fn archive(path: &str) -> Result<String, String> {
    print::file_under(path, &Settings::on("  ", 0))
}

/// The digest job's output.
pub fn digest(path: &str) -> Result<String, String> {
    archive(path).map(|text| digest_line(text.as_bytes()))
}

/// `<16 hex digits> <length> bytes`.
pub fn digest_line(text: &[u8]) -> String {
    format!("{:016x} {} bytes\n", digest_of(text), text.len())
}

/// The digits in base 256, the text's bytes after a 1, each times its power, added up from the last.
fn digest_of(text: &[u8]) -> u128 {
    let mut sum = 0;
    let mut power = 1;
    for &byte in text.iter().rev() {
        sum = (sum + u128::from(byte) * power) % MODULUS;
        power = power * 256 % MODULUS;
    }
    (sum + power) % MODULUS
}

#[cfg(test)]
mod tests {
    use super::*;

    #[test]
    fn known_digests() {
        assert_eq!(digest_line(b""), "0000000000000001 0 bytes\n");
        assert_eq!(digest_line(b"abc"), "0000000001616263 3 bytes\n");
        assert_eq!(digest_line(b"abcdefg"), "006162636465666c 7 bytes\n");
    }
}
