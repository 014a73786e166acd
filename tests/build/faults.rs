//! Seeds the faults of tests/faults into a copy of tests/src/reference, all of them at once: where a fault has another expression, the copy has
//! `(match current() { number => new, _ => old })`. tests/faults/README.md has the format of the lists.
use std::cmp::Reverse;
use std::collections::BTreeMap;
use std::fmt::Write;
use std::fs;
use std::ops::Range;
use std::path::Path;

/// The lists, in the order in which their faults are numbered.
const LISTS: [&str; 13] = [
    "groups",
    "region",
    "refusals",
    "guest",
    "entries",
    "mapping",
    "signature",
    "leaves",
    "tables",
    "large",
    "marks",
    "kinds",
    "registers",
];

type Result<T = ()> = std::result::Result<T, String>;

#[derive(Default)]
struct Lists {
    groups: BTreeMap<String, Vec<String>>,
    faults: Vec<Fault>,
}

#[derive(Default)]
struct Fault {
    sentence: String,
    calls: Vec<String>,
    edits: Vec<Edit>,
}

/// Of a function of the reference, one expression and what the fault has in its place.
#[derive(Clone, Default)]
struct Edit {
    line: String,
    function: String,
    old: String,
    new: String,
}

/// An edit, with the number of its fault and where the expression stands in the text of a module.
struct Seed {
    number: usize,
    module: usize,
    span: Range<usize>,
    new: String,
}

struct Module {
    name: String,
    text: String,
}

/// Writes the copy and the list of its faults to OUT_DIR, or says what is wrong with the lists.
pub fn generate() {
    if let Err(message) = generated() {
        eprintln!("{message}");
        std::process::exit(1);
    }
}

fn generated() -> Result {
    let tests = Path::new(env!("CARGO_MANIFEST_DIR"));
    let (reference, lists) = (tests.join("src/reference"), tests.join("faults"));
    println!("cargo:rerun-if-changed={}", reference.display());
    println!("cargo:rerun-if-changed={}", lists.display());
    let faults = read_lists(&lists)?;
    let modules = read_modules(&reference)?;
    let mut seeds = Vec::new();
    for (number, fault) in (1..).zip(&faults) {
        for edit in &fault.edits {
            seeds.push(seed(&modules, number, edit)?);
        }
    }
    seeds.sort_by_key(|seed| (seed.module, seed.span.start, Reverse(seed.span.end), seed.number));
    let copies: Vec<String> = modules
        .iter()
        .enumerate()
        .map(|(at, module)| {
            let own: Vec<&Seed> = seeds.iter().filter(|seed| seed.module == at).collect();
            seeded(module, 0..module.text.len(), &own)
        })
        .collect::<Result<_>>()?;
    let out = std::env::var("OUT_DIR").map_err(|error| error.to_string())?;
    let write = |name, text| fs::write(Path::new(&out).join(name), text).map_err(|error| format!("{name}: {error}"));
    write("seeded.rs", one_module(&modules, &copies))?;
    write("fault_list.rs", fault_list(&faults))
}

fn read(path: &Path) -> Result<String> {
    fs::read_to_string(path).map_err(|error| format!("{}: {error}", path.display()))
}

fn read_lists(folder: &Path) -> Result<Vec<Fault>> {
    let mut lists = Lists::default();
    for name in LISTS {
        let text = read(&folder.join(format!("{name}.txt")))?;
        let mut lines = Vec::new();
        for (number, line) in (1..).zip(text.lines().chain([""])) {
            match line.split_once(": ") {
                _ if line.starts_with('#') => {}
                Some((key, value)) => lines.push((format!("tests/faults/{name}.txt:{number}"), key, value)),
                None if line.is_empty() => lists.add(&std::mem::take(&mut lines))?,
                None => return Err(format!("tests/faults/{name}.txt:{number}: no 'key: value': {line}")),
            }
        }
    }
    Ok(lists.faults)
}

impl Lists {
    /// Adds the group or fault of a paragraph.
    fn add(&mut self, lines: &[(String, &str, &str)]) -> Result {
        let Some((place, kind, name)) = lines.first() else { return Ok(()) };
        let mut fault = Fault { sentence: name.to_string(), ..Fault::default() };
        let mut edit = Edit::default();
        for (line, key, value) in &lines[1..] {
            match *key {
                "calls" => fault.calls = value.split(' ').flat_map(|call| self.calls(call)).collect(),
                "in" => edit.function = value.to_string(),
                "old" => edit.old = value.to_string(),
                "new" => fault.edits.push(Edit { line: line.clone(), new: value.to_string(), ..edit.clone() }),
                _ => return Err(format!("{line}: unknown key {key}")),
            }
        }
        let known = self.faults.iter().any(|other| other.sentence == fault.sentence);
        match *kind {
            _ if fault.calls.is_empty() => return Err(format!("{place}: no calls")),
            "group" => {
                self.groups.insert(fault.sentence, fault.calls);
            }
            "fault" if known => return Err(format!("{place}: there is another fault of this sentence")),
            "fault" if fault.edits.is_empty() => return Err(format!("{place}: no edit")),
            "fault" => self.faults.push(fault),
            _ => return Err(format!("{place}: a paragraph starts with 'fault:' or 'group:'")),
        }
        Ok(())
    }

    /// The calls of a group, or one call.
    fn calls(&self, name: &str) -> Vec<String> {
        self.groups.get(name).cloned().unwrap_or_else(|| vec![name.to_string()])
    }
}

/// The modules of the reference; the first is mod.rs.
fn read_modules(folder: &Path) -> Result<Vec<Module>> {
    let mut modules = vec![Module { name: "mod".to_string(), text: read(&folder.join("mod.rs"))? }];
    let root = modules[0].text.clone();
    for name in root.lines().filter_map(declared) {
        modules.push(Module { name: name.to_string(), text: read(&folder.join(format!("{name}.rs")))? });
    }
    Ok(modules)
}

/// The module that a line declares.
fn declared(line: &str) -> Option<&str> {
    line.trim_start_matches("pub ").strip_prefix("mod ")?.strip_suffix(';')
}

fn seed(modules: &[Module], number: usize, edit: &Edit) -> Result<Seed> {
    let Edit { line, function, old, new } = edit;
    let bodies: Vec<(usize, Range<usize>)> = (0..)
        .zip(modules)
        .flat_map(|(at, module)| functions(&module.text, function).into_iter().map(move |span| (at, span)))
        .collect();
    let [(module, body)] = &bodies[..] else {
        return Err(format!("{line}: the reference has {} functions '{function}'", bodies.len()));
    };
    let found = occurrences(&modules[*module].text, body, old);
    let [span] = &found[..] else {
        return Err(format!("{line}: '{function}' has {} times '{old}'", found.len()));
    };
    Ok(Seed { number, module: *module, span: span.clone(), new: new.clone() })
}

/// Where the functions of this name stand, from `fn` to the brace below it.
fn functions(text: &str, name: &str) -> Vec<Range<usize>> {
    let head = format!("fn {name}(");
    text.match_indices(&head)
        .filter_map(|(start, _)| {
            let line = text[..start].rfind('\n').map_or(0, |end| end + 1);
            let indent = text[line..].len() - text[line..].trim_start().len();
            let end = format!("\n{}}}\n", " ".repeat(indent));
            text[start..].find(&end).map(|length| start..start + length)
        })
        .collect()
}

/// Where the expression stands, white space aside, and not as a part of a longer word.
fn occurrences(text: &str, within: &Range<usize>, expression: &str) -> Vec<Range<usize>> {
    let visible = text[within.clone()].char_indices().filter(|(_, letter)| !letter.is_whitespace());
    let letters: Vec<(usize, char)> = visible.map(|(at, letter)| (within.start + at, letter)).collect();
    let wanted: Vec<char> = expression.chars().filter(|letter| !letter.is_whitespace()).collect();
    let in_word = |letter: Option<char>| letter.is_some_and(|letter| letter.is_alphanumeric() || letter == '_');
    let cut = |at: usize| in_word(text[..at].chars().next_back()) && in_word(text[at..].chars().next());
    letters
        .windows(wanted.len())
        .filter(|window| window.iter().map(|(_, letter)| letter).eq(&wanted))
        .map(|window| {
            let (last, letter) = window[window.len() - 1];
            window[0].0..last + letter.len_utf8()
        })
        .filter(|span| !cut(span.start) && !cut(span.end))
        .collect()
}

/// A part of a module with its seeds, which are sorted: those of one expression together, and after them those inside it.
fn seeded(module: &Module, part: Range<usize>, seeds: &[&Seed]) -> Result<String> {
    let (mut copy, mut at, mut rest) = (String::new(), part.start, seeds);
    while let Some(first) = rest.first() {
        let span = first.span.clone();
        let same = rest.iter().take_while(|seed| seed.span == span).count();
        let inner = rest[same..].iter().take_while(|seed| seed.span.start < span.end).count();
        if rest[same..same + inner].iter().any(|seed| seed.span.end > span.end) {
            return Err(format!("{}.rs: edits overlap in part at '{}'", module.name, &module.text[span]));
        }
        let old = seeded(module, span.clone(), &rest[same..same + inner])?;
        let arms: String = rest[..same].iter().map(|seed| format!("{} => {}, ", seed.number, seed.new)).collect();
        copy += &module.text[at..span.start];
        copy += &format!("(match crate::faults::current() {{ {arms}_ => {old} }})");
        (at, rest) = (span.end, &rest[same + inner..]);
    }
    Ok(copy + &module.text[at..part.end])
}

/// The copy as one module, with those below it inside it.
fn one_module(modules: &[Module], copies: &[String]) -> String {
    let mut text = String::from("#[allow(warnings, clippy::all)]\npub mod seeded {\n");
    for line in copies[0].lines() {
        let below = declared(line).and_then(|name| modules.iter().position(|module| module.name == name));
        match below {
            Some(at) => {
                let _ = writeln!(text, "{} {{\n{}}}", line.trim_end_matches(';'), copies[at]);
            }
            None => {
                let _ = writeln!(text, "{line}");
            }
        }
    }
    text + "}\n"
}

/// Of each fault the sentence and the calls.
fn fault_list(faults: &[Fault]) -> String {
    let mut text = String::from("const EDITED: &[(&str, &[Kind])] = &[\n");
    for Fault { sentence, calls, .. } in faults {
        let kinds: Vec<String> = calls.iter().map(|call| format!("Kind::{}", variant(call))).collect();
        let _ = writeln!(text, "    ({sentence:?}, &[{}]),", kinds.join(", "));
    }
    text + "];\n"
}

/// `create_l1` is CreateL1.
fn variant(call: &str) -> String {
    call.split('_').map(|word| word[..1].to_uppercase() + &word[1..]).collect()
}
