//! Numbers as they are typed. One that is too large for the library's type stands for the largest
//! that the library takes: no rule accepts either, so the refusal is the same.

/// Digits only; at most `largest`.
pub fn saturating(word: &str, largest: u32) -> Option<u32> {
    let digits = !word.is_empty() && word.bytes().all(|byte| byte.is_ascii_digit());
    digits.then(|| word.parse().unwrap_or(largest).min(largest))
}

/// Decimal, or hex after `0x`.
pub fn register_number(word: &str) -> Option<u32> {
    let hex = word.strip_prefix("0x").or_else(|| word.strip_prefix("0X"));
    match hex {
        Some("") => None,
        Some(digits) if !digits.bytes().all(|byte| byte.is_ascii_hexdigit()) => None,
        Some(digits) => Some(u32::from_str_radix(digits, 16).unwrap_or(u32::MAX)),
        None => saturating(word, u32::MAX),
    }
}

/// Digits with or without a sign, and whether the type holds what they say.
pub fn signed(word: &str) -> Option<(i16, bool)> {
    let (negative, digits) = match word.strip_prefix('-') {
        Some(digits) => (true, digits),
        None => (false, word.strip_prefix('+').unwrap_or(word)),
    };
    let size = i64::from(saturating(digits, u32::MAX)?);
    let number = if negative { -size } else { size };
    match i16::try_from(number) {
        Ok(number) => Some((number, true)),
        Err(_) => Some((if negative { i16::MIN } else { i16::MAX }, false)),
    }
}
