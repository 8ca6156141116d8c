//! The C header's numbers against the code and the definitions: each stands there under the same name.

mod numbers;

use std::fs;
use std::path::Path;

use numbers::{defines, number};

// The folders of a crate in which a number has to stand.
const BOTH: &[&str] = &["src", "specs"];
const CODE: &[&str] = &["src"];
const SPECS: &[&str] = &["specs"];

/// The header's name, the crate, the name there, how many times its number is the header's, the folders.
/// A `*` stands for any ending; the first row that fits counts.
const ROWS: &[(&str, &str, &str, u32, &[&str])] = &[
    ("IMAGE_LEN", "image", "IMAGE_LEN", 1, BOTH),
    ("DIGITS_LEN", "stled325", "DIGITS_LEN", 1, BOTH),
    ("LINES_LEN", "stled325", "LINES_LEN", 1, BOTH),
    ("TICKS_PER_SECOND", "units", "PER_SECOND", 1, BOTH),
    ("LONGEST_CUT", "calendar", "LIMIT", 1, BOTH),
    ("AT_REGISTERS", "image", "REGISTERS", 1, SPECS), // the code reads a register at its own address
    ("AT_*", "image", "*", 1, BOTH),
    ("ALARM_FLAG", "controller", "ALARM_FLAG", 1, BOTH),
    ("WATCHDOG_FLAG", "controller", "WATCHDOG_FLAG", 1, BOTH),
    ("INT_STBY_*", "controller", "*", 1, BOTH),
    ("INT_*", "controller", "*", 16, BOTH),
    ("PIN_*", "image", "*", 1, BOTH),
    ("LINE_*", "display", "*", 1, BOTH),
    ("REG_*", "registers", "*", 1, BOTH),
    ("CMD_*", "command", "*", 1, BOTH),
    ("PROTOCOL_*", "remote", "*", 16, BOTH),
    ("POINT", "display", "POINT", 1, BOTH),
    ("FILL", "output", "FILL", 1, BOTH),
    // Single bits of which the definitions have a test and not the number.
    ("OSC_ST", "registers", "OSC_ST", 1, CODE),
    ("AFE", "registers", "AFE", 1, CODE),
    ("ABE", "registers", "ABE", 1, CODE),
    ("WDFEN", "registers", "WDFEN", 1, CODE),
    ("MD_H", "display", "MD_H", 1, CODE),
    ("M_MS", "display", "M_MS", 1, CODE),
    ("TWELVE_HOURS", "display", "TWELVE_HOURS", 1, CODE),
    ("RPT*", "timekeeper", "RPT*", 1, CODE),
    ("CFG_CLOCK_FACE", "display", "CLOCK_FACE", 1, CODE),
    ("CFG_*", "controller", "*", 1, CODE),
    ("DISPLAY_ON", "display", "DISPLAY_ON", 1, CODE),
];

/// The header's names that no crate has as a number.
const ALONE: &[&str] = &[
    // Parts of registers, groups of first bytes and a bit of one group, told by quotient and remainder.
    "CB",
    "RB2",
    "RB1",
    "RB0",
    "BMB",
    "CMD_CONFIGURE",
    "CMD_SET_DISPLAY",
    "CFG_GIVES_DIGITS",
    // The first address of a range.
    "DIGIT_1",
    // Stored and not looked at.
    "CAL_SIGN",
    // The lack of a protocol.
    "PROTOCOL_OFF",
];

/// Crate, name in it, factor and folders for a name of the header.
fn counterpart(name: &str) -> Option<(&str, String, u32, &[&str])> {
    ROWS.iter().find_map(|&(given, krate, inner, factor, folders)| {
        let ending = match given.strip_suffix('*') {
            Some(beginning) => name.strip_prefix(beginning)?,
            None => (name == given).then_some("")?,
        };
        Some((krate, inner.replace('*', ending), factor, folders))
    })
}

/// A variant's name as a constant's: `WakeUp` as `WAKE_UP`.
fn capitals(variant: &str) -> String {
    let mut name = String::new();
    for c in variant.chars() {
        if c.is_uppercase() && !name.is_empty() {
            name.push('_');
        }
        name.extend(c.to_uppercase());
    }
    name
}

/// The number that a line gives to the name: `pub const NAME: u8 = 8;` or the variant `    Name = 8,` in code, `NAME = 8` in a definition,
/// or `name = 8` where a clause cites it beside the constant.
fn stated(line: &str, name: &str) -> Option<u32> {
    let (left, right) = line.split_once(" = ")?;
    let item = left.trim_start();
    let declared = match item.strip_prefix("pub ").unwrap_or(item).strip_prefix("const ") {
        Some(constant) => constant.split(':').next()?.to_string(),
        None if item != left && right.ends_with(',') => capitals(item),
        None => left.to_uppercase(),
    };
    number(right.trim_end_matches(',').split_whitespace().next()?).filter(|_| declared == name)
}

/// Each number that the crate's files in the folder give to the name.
fn all_stated(krate: &str, folder: &str, name: &str) -> Vec<u32> {
    let path = Path::new(env!("CARGO_MANIFEST_DIR")).join("../crates").join(krate).join(folder);
    let mut found = Vec::new();
    for entry in fs::read_dir(&path).unwrap_or_else(|e| panic!("{}: {e}", path.display())) {
        let text = fs::read_to_string(entry.unwrap().path()).unwrap();
        found.extend(text.lines().filter_map(|line| stated(line, name)));
    }
    found
}

/// What is wrong with a number of the header: no row fits it, or a folder does not have it once and so.
fn complaints(name: &str, value: u32) -> Vec<String> {
    let Some((krate, inner, factor, folders)) = counterpart(name) else {
        return vec![format!("STLED325_{name} has no row")];
    };
    let mut wrong = Vec::new();
    for folder in folders {
        let found = all_stated(krate, folder, &inner);
        if !matches!(found[..], [one] if factor * one == value) {
            let there = format!("crates/{krate}/{folder} has {inner} (times {factor}) as {found:?}");
            wrong.push(format!("STLED325_{name} is {value}, but {there}"));
        }
    }
    wrong
}

#[test]
fn a_number_that_differs_or_is_missing_is_noticed() {
    assert_eq!(stated("pub const LIMIT: u32 = 31_622_400;", "LIMIT"), Some(31_622_400));
    assert_eq!(stated("    const KEY: u8 = 8; // b3", "KEY"), Some(8));
    assert_eq!(stated("    WakeUp = 2,", "WAKE_UP"), Some(2));
    assert_eq!(stated("    WakeUp = 2,", "WAKEUP"), None);
    assert_eq!(stated("limit = 31_622_400", "LIMIT"), Some(31_622_400));
    assert_eq!(stated("ALARM_MONTH = 0x0A", "ALARM_MONTH"), Some(0x0A));
    assert_eq!(stated("ALARM_MONTHS = 0x0A", "ALARM_MONTH"), None);
    assert_eq!(stated("MONTH l = 0x0A", "MONTH"), None);
    for (name, value, wrong) in
        [("REG_YEAR", 7, 0), ("REG_YEAR", 8, 2), ("REG_YEARS", 7, 2), ("INT_KEY", 8, 2), ("YEAR", 7, 1)]
    {
        assert_eq!(complaints(name, value).len(), wrong, "{name} as {value}");
    }
}

#[test]
fn code_and_definitions_have_the_headers_numbers() {
    let header = defines();
    let compared = header.iter().filter(|(name, _)| !ALONE.contains(name));
    let wrong: Vec<String> = compared.flat_map(|(name, &value)| complaints(name, value)).collect();
    assert!(wrong.is_empty(), "header and crates differ: {wrong:#?}");
    for name in ALONE {
        assert!(header.contains_key(name), "the header has no STLED325_{name}");
    }
}
