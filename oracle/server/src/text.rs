//! Numbers and byte strings as the line protocol writes them.

const DIGITS: &[u8; 16] = b"0123456789abcdef";

/// A decimal number of digits only, within T.
pub fn number<T: std::str::FromStr>(word: &str) -> Option<T> {
    // The standard parser would take a leading plus sign.
    if word.bytes().all(|c| c.is_ascii_digit()) {
        word.parse().ok()
    } else {
        None
    }
}

/// A byte string: lower-case hexadecimal, `-` for none.
pub fn bytes(word: &str) -> Option<Vec<u8>> {
    if word == "-" {
        return Some(Vec::new());
    }
    if word.is_empty() || word.len() % 2 != 0 {
        return None;
    }
    word.as_bytes()
        .chunks_exact(2)
        .map(|pair| Some(nibble(pair[0])? << 4 | nibble(pair[1])?))
        .collect()
}

fn nibble(c: u8) -> Option<u8> {
    match c {
        b'0'..=b'9' => Some(c - b'0'),
        b'a'..=b'f' => Some(c - b'a' + 10),
        _ => None,
    }
}

pub fn hex(data: &[u8]) -> String {
    if data.is_empty() {
        return "-".into();
    }
    let mut out = String::with_capacity(2 * data.len());
    for byte in data {
        out.push(char::from(DIGITS[usize::from(byte >> 4)]));
        out.push(char::from(DIGITS[usize::from(byte & 15)]));
    }
    out
}

/// A count and the items, each after a space.
pub fn counted(items: impl ExactSizeIterator<Item = String>) -> String {
    let mut out = items.len().to_string();
    for item in items {
        out.push(' ');
        out.push_str(&item);
    }
    out
}

pub fn comma_separated<T: ToString>(items: &[T]) -> String {
    let words: Vec<String> = items.iter().map(T::to_string).collect();
    words.join(",")
}
