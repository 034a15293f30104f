//! The fields of a line: numbers and bytes.

use super::LONGEST_BUFFER;

/// Digits only, no leading zero but in `0` itself, at most 2^64 - 1.
pub fn number(field: &[u8]) -> Option<u64> {
    if field.is_empty() || (field.len() > 1 && field[0] == b'0') {
        return None;
    }
    let mut value: u64 = 0;
    for digit in field {
        if !digit.is_ascii_digit() {
            return None;
        }
        value = value.checked_mul(10)?.checked_add(u64::from(digit - b'0'))?;
    }
    Some(value)
}

pub fn at_most(field: &[u8], highest: u64) -> Option<u64> {
    number(field).filter(|value| *value <= highest)
}

/// Pairs of lower-case hex digits, at least one and at most 40,960 of them; or `-` for none.
pub fn bytes(field: &[u8]) -> Option<Vec<u8>> {
    if field == b"-" {
        return Some(Vec::new());
    }
    if field.is_empty() || field.len() % 2 == 1 || field.len() / 2 > LONGEST_BUFFER {
        return None;
    }
    field.chunks(2).map(|pair| Some(digit(pair[0])? * 16 + digit(pair[1])?)).collect()
}

fn digit(letter: u8) -> Option<u8> {
    match letter {
        b'0'..=b'9' => Some(letter - b'0'),
        b'a'..=b'f' => Some(letter - b'a' + 10),
        _ => None,
    }
}

pub fn hex(bytes: &[u8]) -> String {
    if bytes.is_empty() {
        return "-".to_string();
    }
    bytes.iter().map(|byte| format!("{byte:02x}")).collect()
}
