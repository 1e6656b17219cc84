//! Words that many answers share.

/// "1 byte", "2 bytes"
pub fn count(number: impl TryInto<u64>, thing: &str) -> String {
    let number = number.try_into().unwrap_or(u64::MAX);
    let plural = if number == 1 { "" } else { "s" };
    format!("{number} {thing}{plural}")
}

pub fn mode_word(coded: bool) -> &'static str {
    if coded {
        "coded"
    } else {
        "uncoded"
    }
}

/// A name as a terminal may show it: what could steer the terminal is spelled out.
pub fn shown(name: &str) -> String {
    let spelled = |letter: char| {
        if letter.is_control() {
            letter.escape_default().to_string()
        } else {
            letter.to_string()
        }
    };
    name.chars().map(spelled).collect()
}

/// A long path by its end, where the file's name is; a long name by both ends.
pub fn shortened(path: &str) -> String {
    const LONG: usize = 60;
    let file = path.rsplit('/').next().unwrap_or(path);
    if path.chars().count() <= LONG {
        return path.to_string();
    }
    let kept = if file.chars().count() < LONG {
        0
    } else {
        LONG / 2
    };
    let end: Vec<char> = path.chars().rev().take(LONG - kept - 1).collect();
    let start = file.chars().take(kept);
    start
        .chain(['\u{2026}'])
        .chain(end.into_iter().rev())
        .collect()
}
