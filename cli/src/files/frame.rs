//! Frames as hex: two digits a byte, the first byte first.

use super::source::quoted;
use super::symbols::SymbolText;
use clevisroot_sys::MAX_FRAME;

/// More bytes than any frame has, wherever it starts: beyond, they are only counted.
const KEPT: usize = MAX_FRAME + 1;

pub struct Frame {
    pub bytes: Vec<u8>,
    /// The bytes that the file has for this frame.
    pub count: usize,
    /// The name that messages have for the file.
    pub name: String,
    /// The line with its first byte.
    pub line: Option<usize>,
}

impl SymbolText for Frame {
    fn new(file: &str) -> Frame {
        Frame {
            bytes: Vec::new(),
            count: 0,
            name: file.to_string(),
            line: None,
        }
    }

    fn is_empty(&self) -> bool {
        self.count == 0
    }

    fn is_header(_: &str) -> bool {
        false
    }

    /// Whitespace may stand between bytes, and `0x` in front of a word.
    fn take(&mut self, line: usize, text: &str) -> Result<(), String> {
        self.line.get_or_insert(line);
        for word in text.split_whitespace() {
            let bytes = word_bytes(word)?;
            self.count += bytes.len();
            let room = KEPT.saturating_sub(self.bytes.len());
            self.bytes.extend(bytes.into_iter().take(room));
        }
        Ok(())
    }
}

/// The bytes of a word of hex.
pub fn word_bytes(word: &str) -> Result<Vec<u8>, String> {
    let digits = word
        .strip_prefix("0x")
        .or_else(|| word.strip_prefix("0X"))
        .unwrap_or(word);
    let values: Option<Vec<u32>> = digits.chars().map(|digit| digit.to_digit(16)).collect();
    let values = values.ok_or(format!("{} is not hex", quoted(word)))?;
    if values.is_empty() || values.len() % 2 == 1 {
        return Err(format!("{} is not two hex digits a byte", quoted(word)));
    }
    let byte = |pair: &[u32]| (pair[0] * 16 + pair[1]) as u8;
    Ok(values.chunks_exact(2).map(byte).collect())
}

/// The frame as a frame file has it, 32 bytes a line.
pub fn hex_lines(frame: &[u8]) -> String {
    const DIGITS: &[u8; 16] = b"0123456789abcdef";
    let mut text = String::with_capacity(2 * frame.len() + frame.len() / 32 + 1);
    for (count, &byte) in frame.iter().enumerate() {
        text.push(DIGITS[usize::from(byte >> 4)].into());
        text.push(DIGITS[usize::from(byte & 15)].into());
        if count % 32 == 31 || count + 1 == frame.len() {
            text.push('\n');
        }
    }
    text
}
