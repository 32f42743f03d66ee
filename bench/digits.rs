//! Hexadecimal digits as the library `hex` (0.4) reads and writes them. `run.py` puts this into a copy of the plain program, in the
//! place of its tables, to tell what of a difference in time is the library's.

const DIGITS: &[u8; 16] = b"0123456789abcdef";

fn value(digit: u8) -> Option<u8> {
    match digit {
        b'A'..=b'F' => Some(digit - b'A' + 10),
        b'a'..=b'f' => Some(digit - b'a' + 10),
        b'0'..=b'9' => Some(digit - b'0'),
        _ => None,
    }
}

/// Reads two digits into each octet, and returns whether all are digits.
pub fn decode_to_slice(text: &[u8], octets: &mut [u8]) -> bool {
    for (i, octet) in octets.iter_mut().enumerate() {
        let (Some(high), Some(low)) = (value(text[2 * i]), value(text[2 * i + 1])) else {
            return false;
        };
        *octet = high << 4 | low;
    }
    true
}

/// Writes two digits for each octet.
pub fn encode_to_slice(octets: &[u8], text: &mut [u8]) {
    for (i, octet) in octets.iter().enumerate() {
        text[2 * i] = DIGITS[usize::from(octet >> 4)];
        text[2 * i + 1] = DIGITS[usize::from(octet & 15)];
    }
}
