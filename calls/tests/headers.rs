//! The table of the calls beside the headers in include/: what Rust code links must be declared as C code sees it.
use calls::{
    Kind, BLOCK, DFAR, DFSR, IFAR, IFSR, KINDS_AT, KINDS_BYTES, LEDGER_HEAD, LEDGER_RECORD, MARK, MARKED, NO_TABLE,
    PENDING, RECORD_BYTES, REGISTERS_BYTES,
};
use std::fs;

fn header(name: &str) -> String {
    let path = format!("{}/../include/{name}", env!("CARGO_MANIFEST_DIR"));
    fs::read_to_string(&path).unwrap_or_else(|error| panic!("{path}: {error}"))
}

/// What stands between two texts, the first time.
fn between<'a>(text: &'a str, from: &str, to: &str) -> &'a str {
    let (_, rest) = text.split_once(from).unwrap_or_else(|| panic!("there is no {from}"));
    rest.split_once(to).unwrap_or_else(|| panic!("nothing ends {from}")).0
}

/// The header up to a call's declaration, and that declaration's parameters.
fn declaration(header: &str, kind: Kind) -> (&str, Vec<String>) {
    let start = format!("uint32_t {}(", kind.export());
    let (before, _) = header.split_once(&start).unwrap_or_else(|| panic!("there is no {start}"));
    let parameters = between(header, &start, ");").split(',');
    (before, parameters.map(|parameter| parameter.split_whitespace().collect::<Vec<_>>().join(" ")).collect())
}

#[test]
fn every_call_is_declared_alike() {
    let header = header("pagemon.h");
    for kind in Kind::ALL {
        assert_eq!(declaration(&header, kind).1, kind.declaration(), "{}", kind.export());
    }
    assert_eq!(header.matches("\nuint32_t ").count(), Kind::ALL.len());
}

/// The numbers of a comment that says `Refusals: 1, 2, 3 (L1), 5.`
fn refusals(comment: &str, kind: Kind) -> Vec<u32> {
    let list = comment.split_once("Refusal").and_then(|(_, rest)| rest.split_once(": ")).unwrap().1;
    let list = list.split_once('.').unwrap().0.replace(" (L1)", "(L1)");
    let words = list.split(|separator: char| separator == ',' || separator.is_whitespace());
    let of_l1 = kind.name().contains("_l1");
    words.filter_map(|word| word.strip_suffix("(L1)").filter(|_| of_l1).unwrap_or(word).parse().ok()).collect()
}

#[test]
fn every_call_refuses_alike() {
    let header = header("pagemon.h");
    for kind in Kind::ALL {
        let (before, _) = declaration(&header, kind);
        let comment = before.rsplit_once("/*").unwrap().1;
        assert_eq!(refusals(comment, kind), kind.refusals(), "{}", kind.export());
        for number in kind.refusals() {
            assert!(header.contains(&format!(" = {number},")) || header.contains(&format!(" = {number} ")), "{number}");
        }
    }
}

/// The value in a line `#define NAME VALUEu`, or `NAME = VALUE` of an enum.
fn value(header: &str, name: &str) -> u32 {
    let named = |line: &str| {
        let mut words = line.split_whitespace().filter(|word| !["#define", "="].contains(word));
        words.next().filter(|word| *word == name).and(words.next()).map(str::to_string)
    };
    let value = header.lines().find_map(named).unwrap_or_else(|| panic!("there is no {name}"));
    let digits = value.trim_end_matches([',', 'u']);
    match digits.strip_prefix("0x") {
        Some(digits) => u32::from_str_radix(digits, 16).unwrap(),
        None => digits.parse().unwrap(),
    }
}

#[test]
fn records_and_call_bytes() {
    let header = header("steps.h");
    for kind in Kind::recorded() {
        let name = format!("PAGEMON_CALL_{}", kind.name().to_uppercase());
        assert_eq!(Some(value(&header, &name)), kind.byte().map(u32::from), "{name}");
    }
    assert_eq!(header.matches("PAGEMON_CALL_").count(), Kind::recorded().count());
    assert_eq!(value(&header, "PAGEMON_RECORD_BYTES"), RECORD_BYTES as u32);
    assert_eq!([value(&header, "PAGEMON_FIRST_MARK"), value(&header, "PAGEMON_SECOND_MARK")], MARK.map(u32::from));
}

#[test]
fn sizes() {
    let header = header("pagemon.h");
    assert_eq!(value(&header, "PAGEMON_BLOCK_BYTES"), BLOCK as u32);
    assert_eq!(value(&header, "PAGEMON_LEDGER_HEAD_BYTES"), LEDGER_HEAD as u32);
    assert_eq!(value(&header, "PAGEMON_KINDS_AT"), KINDS_AT as u32);
    assert_eq!(value(&header, "PAGEMON_KINDS_BYTES"), KINDS_BYTES as u32);
    assert_eq!(value(&header, "PAGEMON_LEDGER_RECORD_BYTES"), LEDGER_RECORD as u32);
    assert_eq!(value(&header, "PAGEMON_NO_TABLE"), NO_TABLE);
    assert_eq!(value(&header, "PAGEMON_MARKED"), MARKED);
}

#[test]
fn fault_registers() {
    let header = header("pagemon.h");
    assert_eq!(value(&header, "PAGEMON_REGISTERS_BYTES"), REGISTERS_BYTES as u32);
    for (name, at) in [("DFSR", DFSR), ("DFAR", DFAR), ("IFSR", IFSR), ("IFAR", IFAR), ("PENDING", PENDING)] {
        assert_eq!(value(&header, &format!("PAGEMON_{name}")), at as u32, "{name}");
    }
}
