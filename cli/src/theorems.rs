//! Theorems that answers name, as `crates/guarantees/proofs/Guarantees.antt` has them. All of them are of
//! coded tables.

/// Whatever register it is read with, a written symbol turned by a quarter, either way, is never read.
pub const QUARTER_ANY: &str = "quarter-any-register";

/// If N is odd, a written symbol turned by half a turn is never read, whatever register it is read
/// with.
pub const HALF_ANY: &str = "half-turn-any-register";

/// With the writer's register, the first monitored tone refuses a written symbol turned by half a turn.
pub const HALF_MONITORED: &str = "half-turn-monitored";

/// With the writer's register, a written symbol turned by half a turn is read if and only if no tone is
/// monitored and N is even.
pub const HALF: &str = "half-turn";

/// The clip check of a written symbol, of one turned by half a turn, and of one turned by a quarter.
pub const CLIP_WRITTEN: &str = "clip-of-written";
pub const CLIP_TURNED: &str = "clip-of-turned";
pub const CLIP_QUARTER: &str = "clip-of-quarter";

/// " (theorems half-turn, quarter-any-register)"
pub fn named(theorems: &[&str]) -> String {
    match theorems {
        [] => String::new(),
        [theorem] => format!(" (theorem {theorem})"),
        _ => format!(" (theorems {})", theorems.join(", ")),
    }
}

#[cfg(test)]
mod tests {
    use super::*;

    const ALL: [&str; 7] = [
        QUARTER_ANY,
        HALF_ANY,
        HALF_MONITORED,
        HALF,
        CLIP_WRITTEN,
        CLIP_TURNED,
        CLIP_QUARTER,
    ];

    /// Every name is that of a theorem on the page.
    #[test]
    fn the_page_has_them() {
        let page = concat!(
            env!("CARGO_MANIFEST_DIR"),
            "/../crates/guarantees/proofs/Guarantees.antt"
        );
        let page = std::fs::read_to_string(page).expect("the page of theorems");
        for name in ALL {
            let stated = format!("pub {name} : ");
            let mut lines = page.lines().map(str::trim_start);
            assert!(lines.any(|line| line.starts_with(&stated)), "{name}");
        }
    }

    /// The help, which is typed, names no other.
    #[test]
    fn the_help_names_no_other() {
        let help = include_str!("commands/details.rs");
        let mut named = help.split("(theorem ").skip(1);
        assert!(named.all(|rest| ALL.iter().any(|name| rest.starts_with(&format!("{name})")))));
        assert!(!help.contains("(theorems "));
    }
}
