//! `pagemon`'s answers in words.
use crate::script::{self, Line};
use calls::Kind;

/// How wide a line is before its answer.
const WIDTH: usize = 24;

/// The script with the answer to each call behind it, in the place of a comment on the same line. `output` is what `pagemon` printed for the
/// script's records.
pub fn explain(script: &[u8], output: &str) -> Result<String, Vec<String>> {
    let mut answers = output.lines();
    let mut explained = String::new();
    for Line { number, text, call } in script::lines(script)? {
        explained += text;
        if let Some(call) = call {
            let words = answer(call.kind, answers.next()).map_err(|what| vec![format!("line {number}: {what}")])?;
            explained += &format!("{:1$} => {words}", "", WIDTH.saturating_sub(text.len()));
        }
        explained += "\n";
    }
    match answers.next() {
        None => Ok(explained),
        Some(more) => Err(vec![format!("the output goes on after the last call: `{more}`")]),
    }
}

/// A line of `pagemon`'s output in words.
fn answer(kind: Kind, line: Option<&str>) -> Result<String, String> {
    let line = line.ok_or("the output has no answer to this call")?;
    let unfit = || format!("`{line}` is no answer to {}", kind.name());
    let numbers: Vec<u32> = line.split(' ').map(str::parse).collect::<Result<_, _>>().map_err(|_| unfit())?;
    match numbers[..] {
        [call, ..] if Some(call) != kind.byte().map(u32::from) => Err(unfit()),
        [_, 0] if !kind.gives_byte() => Ok("0 accepted".to_string()),
        [_, 0, byte] if kind.gives_byte() => Ok(format!("0 accepted, byte {byte}")),
        [_, number] => kind.words(number).map(|words| format!("{number} {words}")).ok_or_else(unfit),
        _ => Err(unfit()),
    }
}

#[cfg(test)]
mod tests {
    use super::*;

    #[test]
    fn a_script_with_its_answers() {
        let script = b"# A page to write.\nmap_l2 4 5 8 3 # page\n\nwrite 0x5000 65\nread 0x5000\nfetch 0x5000\n";
        let text = "# A page to write.\n\
            map_l2 4 5 8 3           => 0 accepted\n\
            \n\
            write 0x5000 65          => 0 accepted\n\
            read 0x5000              => 0 accepted, byte 65\n\
            fetch 0x5000             => 23 the right is lacking\n";
        assert_eq!(explain(script, "7 0\n13 0\n12 0 65\n14 23\n"), Ok(text.to_string()));
    }

    #[test]
    fn output_that_does_not_fit() {
        let wrong = |output: &str| explain(b"\nbegin 0\n", output).unwrap_err().concat();
        assert_eq!(wrong(""), "line 2: the output has no answer to this call");
        assert_eq!(wrong("2 0\n"), "line 2: `2 0` is no answer to begin");
        assert_eq!(wrong("1 2\n"), "line 2: `1 2` is no answer to begin");
        assert_eq!(wrong("1 0 0\n"), "line 2: `1 0 0` is no answer to begin");
        assert_eq!(wrong("bad 0\n"), "line 2: `bad 0` is no answer to begin");
        assert_eq!(wrong("1 0\n1 0\n"), "the output goes on after the last call: `1 0`");
    }

    #[test]
    fn an_accepted_read_gives_a_byte() {
        assert!(explain(b"read 0", "12 0\n").is_err());
        assert!(explain(b"read 0", "12 0 0\n").is_ok());
        assert!(explain(b"read 0", "12 22 0\n").is_err());
    }

    #[test]
    fn wrong_scripts_are_not_explained() {
        assert_eq!(explain(b"stop", ""), Err(vec!["line 1: there is no call `stop`".to_string()]));
    }
}
