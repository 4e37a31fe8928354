//! Lines of a probe: a verb and up to five numbers, or a remark.

#[derive(Clone, PartialEq, Eq, Debug)]
pub struct Line {
    pub verb: String,
    pub numbers: Vec<u64>,
}

/// Verbs, each with how many numbers follow it; begin with a desk or without.
const VERBS: [(&str, usize); 48] = [
    ("house", 1),
    ("room", 1),
    ("places", 1),
    ("slots", 1),
    ("base", 1),
    ("lists", 1),
    ("queues", 1),
    ("copies", 1),
    ("table", 2),
    ("tables", 1),
    ("begin", 1),
    ("begin", 2),
    ("enlist", 3),
    ("read", 3),
    ("search", 3),
    ("write", 5),
    ("commit", 2),
    ("abandon", 2),
    ("message", 1),
    ("install", 1),
    ("report", 1),
    ("start", 3),
    ("site", 3),
    ("live", 4),
    ("past", 4),
    ("list", 4),
    ("merge", 0),
    ("emit", 0),
    ("open", 1),
    ("merger", 2),
    ("source", 3),
    ("queued", 3),
    ("replay", 1),
    ("value", 2),
    ("blank", 1),
    ("copied", 3),
    ("letter", 3),
    ("record", 2),
    ("word", 2),
    ("cut", 1),
    ("head", 4),
    ("entries", 4),
    ("form", 4),
    ("writes", 4),
    ("page", 2),
    ("offset", 3),
    ("run", 2),
    ("bytes", 1),
];

/// `Ok(None)` for a remark: an empty line, or one that begins with `#`.
pub fn parse(line: &str) -> Result<Option<Line>, String> {
    if line.is_empty() || line.starts_with('#') {
        return Ok(None);
    }
    let mut words = line.split(' ');
    let verb = words.next().unwrap_or_default().to_string();
    let numbers = words.map(number).collect::<Option<Vec<u64>>>().ok_or("not a number")?;
    if VERBS.iter().any(|&(name, count)| name == verb && count == numbers.len()) {
        return Ok(Some(Line { verb, numbers }));
    }
    match (verb.as_str(), numbers.len()) {
        // `merger` wants a field and a value; with one number it is a remark.
        ("merger", 1) => Ok(None),
        // So is a conversion, or a record to bytes, with another number of numbers.
        ("page" | "offset" | "run" | "bytes", _) => Ok(None),
        _ => Err(format!("no such probe: {line}")),
    }
}

fn number(word: &str) -> Option<u64> {
    word.bytes().all(|byte| byte.is_ascii_digit()).then(|| word.parse().ok())?
}
