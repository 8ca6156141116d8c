//! The C header's numbers, read as text.
#![allow(dead_code)]

use std::collections::BTreeMap;

/// The number that a word is in C, in Rattle or in a definition.
pub fn number(word: &str) -> Option<u32> {
    let word = word.trim_end_matches(['u', 'U', 'L', ',', ';']).replace('_', "");
    match word.strip_prefix("0x") {
        Some(digits) => u32::from_str_radix(digits, 16).ok(),
        None => word.parse().ok(),
    }
}

/// The header's names, without their prefix, and numbers, from the lines whose words are found to give both.
fn named(
    words_of: fn(&[&'static str]) -> Option<(&'static str, &'static str)>,
) -> BTreeMap<&'static str, u32> {
    let mut numbers = BTreeMap::new();
    for line in include_str!("../../../include/stled325.h").lines() {
        let words: Vec<&str> = line.split_whitespace().collect();
        let Some((name, value)) = words_of(&words) else { continue };
        if let Some(name) = name.strip_prefix("STLED325_") {
            let value = number(value).unwrap_or_else(|| panic!("{name} is no plain number: {value}"));
            assert!(numbers.insert(name, value).is_none(), "{name} is defined twice");
        }
    }
    numbers
}

/// The header's `#define`s.
pub fn defines() -> BTreeMap<&'static str, u32> {
    named(|words| match words {
        ["#define", name, value, ..] => Some((name, value)),
        _ => None,
    })
}

/// The header's enumerators.
pub fn enumerators() -> BTreeMap<&'static str, u32> {
    named(|words| match words {
        [name, "=", value, ..] => Some((name, value)),
        _ => None,
    })
}
