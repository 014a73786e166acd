//! The readable lines.
use calls::{Call, Kind, RECORD_WORDS};

/// A line of a script.
pub struct Line<'a> {
    /// Counted from 1.
    pub number: usize,
    /// As written; of a line with a call the call alone.
    pub text: &'a str,
    pub call: Option<Call>,
}

/// The calls of a script, or what is wrong with each of its wrong lines.
pub fn parse(script: &[u8]) -> Result<Vec<Call>, Vec<String>> {
    Ok(lines(script)?.into_iter().filter_map(|line| line.call).collect())
}

/// The lines of a script, or what is wrong with each wrong one.
pub fn lines(script: &[u8]) -> Result<Vec<Line<'_>>, Vec<String>> {
    let mut lines = Vec::new();
    let mut wrong = Vec::new();
    for (number, bytes) in (1..).zip(script.split_inclusive(|byte| *byte == b'\n')) {
        match line(number, bytes) {
            Ok(line) => lines.push(line),
            Err(what) => wrong.push(format!("line {number}: {what}")),
        }
    }
    if wrong.is_empty() {
        Ok(lines)
    } else {
        Err(wrong)
    }
}

fn line(number: usize, bytes: &[u8]) -> Result<Line<'_>, String> {
    let text = std::str::from_utf8(bytes).map_err(|_| "not UTF-8".to_string())?;
    let written = text.split('#').next().unwrap_or("").trim();
    if written.is_empty() {
        return Ok(Line { number, text: text.trim_end(), call: None });
    }
    Ok(Line { number, text: written, call: Some(call(written)?) })
}

fn call(written: &str) -> Result<Call, String> {
    let (used, spare) = match written.split_once('|') {
        Some((used, spare)) => (used, Some(spare)),
        None => (written, None),
    };
    let (name, used) = used.split_once(char::is_whitespace).unwrap_or((used, ""));
    let kind = Kind::named(name).ok_or_else(|| format!("there is no call `{name}`"))?;
    if kind.byte().is_none() {
        return Err(format!("no record can say {name}"));
    }
    let mut words = numbers(used)?;
    if words.len() != kind.arity() {
        let (given, taken, parameters) = (words.len(), kind.arity(), kind.parameters().join(" "));
        return Err(format!("{name} has {given} arguments, not {taken} ({parameters})"));
    }
    if let Some(spare) = spare {
        words.extend(spare_words(kind, spare)?);
    }
    Ok(Call::new(kind, &words))
}

/// What stands behind the bar.
fn spare_words(kind: Kind, written: &str) -> Result<Vec<u32>, String> {
    let (words, name) = (numbers(written)?, kind.name());
    match RECORD_WORDS.saturating_sub(kind.arity()) {
        0 => Err(format!("{name} has no spare words")),
        room if words.is_empty() || words.len() > room => {
            Err(format!("{name} has {} spare words behind the bar, not 1 to {room}", words.len()))
        }
        _ => Ok(words),
    }
}

fn numbers(words: &str) -> Result<Vec<u32>, String> {
    words.split_whitespace().map(number).collect()
}

fn number(word: &str) -> Result<u32, String> {
    let (digits, radix) = match word.strip_prefix("0x") {
        Some(digits) => (digits, 16),
        None => (word, 10),
    };
    if digits.is_empty() || !digits.chars().all(|digit| digit.is_digit(radix)) {
        return Err(format!("`{word}` is no number"));
    }
    u32::from_str_radix(digits, radix).map_err(|_| format!("{word} is above 2^32 - 1"))
}

#[cfg(test)]
mod tests {
    use super::*;

    #[test]
    fn comments_blanks_and_spaces() {
        let script = b"# a list\n\n   \t\n begin\t256 # B\r\n#read 0\nread 0x5000#";
        assert_eq!(parse(script), Ok(vec![Call::new(Kind::Begin, &[256]), Call::new(Kind::Read, &[0x5000])]));
        assert_eq!(parse(b""), Ok(vec![]));
    }

    #[test]
    fn numbers() {
        assert_eq!(number("0"), Ok(0));
        assert_eq!(number("4294967295"), Ok(u32::MAX));
        assert_eq!(number("0xffffffff"), Ok(u32::MAX));
        assert_eq!(number("0xFFFFFFFF"), Ok(u32::MAX));
        assert_eq!(number("00012"), Ok(12));
        for above in ["4294967296", "0x100000000", "99999999999999999999999999999"] {
            assert_eq!(number(above), Err(format!("{above} is above 2^32 - 1")));
        }
        for none in ["", "0x", "x5", "-1", "+1", "1_000", "0b1", "5h", "ff", "0x0x1", "1.0"] {
            assert_eq!(number(none), Err(format!("`{none}` is no number")));
        }
    }

    #[test]
    fn spare_words() {
        let begin = |words: &[u32]| Ok(Call::new(Kind::Begin, words));
        assert_eq!(call("begin 256 | 0 0xA"), begin(&[256, 0, 10]));
        assert_eq!(call("begin 256|1 2 3"), begin(&[256, 1, 2, 3]));
        assert_eq!(call("write 0x10 65 | 7"), Ok(Call::new(Kind::Write, &[16, 65, 7])));
    }

    fn wrong(line: &str) -> String {
        call(line).unwrap_err()
    }

    #[test]
    fn wrong_lines() {
        assert_eq!(wrong("bgin 0"), "there is no call `bgin`");
        assert_eq!(wrong("BEGIN 0"), "there is no call `BEGIN`");
        assert_eq!(wrong("forget 0 1"), "no record can say forget");
        assert_eq!(wrong("begin"), "begin has 0 arguments, not 1 (first_block)");
        assert_eq!(wrong("begin 0 0"), "begin has 2 arguments, not 1 (first_block)");
        assert_eq!(wrong("map_l2 4 5 8"), "map_l2 has 3 arguments, not 4 (block index target rights)");
        assert_eq!(wrong("link 0 0 4 0 0"), "link has 5 arguments, not 4 (block index target table)");
        assert_eq!(wrong("read five"), "`five` is no number");
        assert_eq!(wrong("read 4294967296"), "4294967296 is above 2^32 - 1");
        assert_eq!(wrong("begin 0 |"), "begin has 0 spare words behind the bar, not 1 to 3");
        assert_eq!(wrong("begin 0 | 1 2 3 4"), "begin has 4 spare words behind the bar, not 1 to 3");
        assert_eq!(wrong("begin 0 | 1 | 2"), "`|` is no number");
        assert_eq!(wrong("begin | 1"), "begin has 0 arguments, not 1 (first_block)");
        assert_eq!(wrong("link 0 0 4 0 | 0"), "link has no spare words");
        assert_eq!(wrong("| 1"), "there is no call ``");
        assert_eq!(parse(b"read \xFF"), Err(vec!["line 1: not UTF-8".to_string()]));
    }

    #[test]
    fn each_wrong_line_is_reported_with_its_number() {
        let script = b"begin 0\n\nread # no address\nfetch 0\nstop";
        let reports = ["line 3: read has 0 arguments, not 1 (address)", "line 5: there is no call `stop`"];
        assert_eq!(parse(script), Err(reports.map(String::from).to_vec()));
    }
}
