//! Numbers and names as people read them.

/// 6000 as `6,000`.
pub fn thousands(n: u64) -> String {
    let digits = n.to_string();
    let mut out = String::with_capacity(digits.len() + digits.len() / 3);
    for (k, digit) in digits.chars().enumerate() {
        if k > 0 && (digits.len() - k).is_multiple_of(3) {
            out.push(',');
        }
        out.push(digit);
    }
    out
}

/// `1 chunk`, `2,000 chunks`.
pub fn counted(n: u64, thing: &str) -> String {
    format!("{} {thing}{}", thousands(n), if n == 1 { "" } else { "s" })
}

/// A text of others for a terminal: no control bytes, and no more than a line of it.
pub fn printable(text: &str) -> String {
    let clean: String = text.chars().map(|c| if c.is_control() { ' ' } else { c }).collect();
    match clean.chars().count() {
        0..=160 => clean,
        _ => clean.chars().take(157).chain("...".chars()).collect(),
    }
}

/// The name that is meant by a word: one that differs in two letters at most.
pub fn near<'a>(word: &str, names: impl Iterator<Item = &'a str>) -> Option<&'a str> {
    let letters: Vec<char> = word.chars().take(40).collect();
    let away = |name: &str| {
        let mut row: Vec<usize> = (0..=letters.len()).collect();
        for (k, a) in name.chars().enumerate() {
            let mut before = std::mem::replace(&mut row[0], k + 1);
            for (i, b) in letters.iter().enumerate() {
                let kept = before + usize::from(a != *b);
                before = row[i + 1];
                row[i + 1] = kept.min(before + 1).min(row[i] + 1);
            }
        }
        row[letters.len()]
    };
    names.map(|name| (away(name), name)).min().filter(|(far, name)| *far <= 2 && *far < name.len()).map(|(_, name)| name)
}
