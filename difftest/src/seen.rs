//! What must come at least once: names, and how often each came.

/// The first that never came.
pub fn never<'a>(names: &[&'a str], counts: &[u64]) -> Option<&'a str> {
    let mut listed = names.iter().zip(counts);
    listed.find(|(_, &count)| count == 0).map(|(&name, _)| name)
}

/// Each name with its count.
pub fn told(names: &[&str], counts: &[u64]) -> String {
    let each = names.iter().zip(counts);
    let each: Vec<String> = each
        .map(|(name, count)| format!("{name} {count}"))
        .collect();
    each.join(", ")
}
