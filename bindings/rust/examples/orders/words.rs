//! The words of an order. None is a word out of form.

fn decimal(word: &str) -> Option<u64> {
    let good = (1..=10).contains(&word.len()) && word.bytes().all(|b| b.is_ascii_digit());
    word.parse().ok().filter(|_| good)
}

pub fn count(word: &str, most: u64) -> Option<usize> {
    decimal(word).filter(|n| *n <= most).map(|n| n as usize)
}

pub fn int32(word: &str) -> Option<i32> {
    let number = match word.strip_prefix('-') {
        Some(digits) => -(decimal(digits)? as i64),
        None => decimal(word)? as i64,
    };
    i32::try_from(number).ok()
}

pub fn int16(word: &str) -> Option<i16> {
    i16::try_from(int32(word)?).ok()
}

fn digit(b: u8) -> Option<u8> {
    match b {
        b'0'..=b'9' => Some(b - b'0'),
        b'a'..=b'f' => Some(b - b'a' + 10),
        _ => None,
    }
}

/// Pairs in lower case, or `-` for no bytes.
pub fn hex(word: &str) -> Option<Vec<u8>> {
    if word == "-" {
        return Some(Vec::new());
    }
    if word.is_empty() || word.len() % 2 != 0 {
        return None;
    }
    word.as_bytes().chunks(2).map(|pair| Some(digit(pair[0])? << 4 | digit(pair[1])?)).collect()
}

pub fn bits(word: &str) -> Option<u32> {
    Some(u32::from_be_bytes(hex(word)?.try_into().ok()?))
}

/// Pairs, nothing for no bytes.
pub fn plain(bytes: &[u8]) -> String {
    bytes.iter().map(|b| format!("{b:02x}")).collect()
}

/// Pairs, `-` for no bytes.
pub fn pairs(bytes: &[u8]) -> String {
    if bytes.is_empty() {
        return "-".to_string();
    }
    plain(bytes)
}
