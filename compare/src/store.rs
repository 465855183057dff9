//! A call as a text file, one line for each thing that it is lent.

use crate::case::{Case, Op};
use crate::publishes::SORTS;
use std::fmt::Write;

pub fn text(case: &Case) -> String {
    let mut text = String::new();
    let bytes = |bytes: &[u8]| -> String { bytes.iter().map(|b| format!("{b:02x}")).collect() };
    let numbers = |numbers: &[u64]| -> String {
        let words: Vec<String> = numbers.iter().map(|n| format!("{n:x}")).collect();
        words.join(" ")
    };
    let list: Vec<u64> = case.list.iter().map(|&start| start as u64).collect();
    let sort = case.sort.map_or("", |sort| SORTS[sort as usize].1);
    let lines = [
        ("op", case.op.name().to_string()),
        ("blob", bytes(&case.blob)),
        ("header", numbers(&case.header)),
        ("ranges", numbers(&case.ranges)),
        ("mask", bytes(&case.mask)),
        ("kept", bytes(&case.kept)),
        ("spare", bytes(&case.spare)),
        ("list", numbers(&list)),
        ("image", numbers(&case.image)),
        ("staged", numbers(&case.staged)),
        ("said", numbers(&case.said)),
        ("reuse", u8::from(case.reuse).to_string()),
        ("numbers", numbers(&case.numbers)),
        ("place", numbers(&case.place)),
        ("sort", sort.to_string()),
    ];
    for (name, value) in lines {
        writeln!(text, "{name} {value}").unwrap();
    }
    text
}

/// Lines that begin with `#` are comments. Without a line for the place there is
/// room for it.
pub fn case(text: &str) -> Result<Case, String> {
    let mut case = Case::new(Op::Header);
    if !text.lines().any(|line| line.starts_with("op ")) {
        return Err("no line says which operation".into());
    }
    for line in text.lines().filter(|line| !line.starts_with('#')) {
        let (name, value) = line.split_once(' ').unwrap_or((line, ""));
        match name {
            "op" => {
                let op = Op::ALL.into_iter().find(|op| op.name() == value);
                case.op = op.ok_or(format!("no operation {value}"))?;
            }
            "blob" => case.blob = bytes(value)?,
            "header" => case.header = numbers(value)?,
            "ranges" => case.ranges = numbers(value)?,
            "mask" => case.mask = bytes(value)?,
            "kept" => case.kept = bytes(value)?,
            "spare" => case.spare = bytes(value)?,
            "list" => case.list = numbers(value)?.iter().map(|&n| n as usize).collect(),
            "image" => case.image = numbers(value)?,
            "staged" => case.staged = numbers(value)?,
            "said" => case.said = numbers(value)?,
            "reuse" => case.reuse = value == "1",
            "numbers" => {
                case.numbers = numbers(value)?.try_into().map_err(|_| "two numbers")?;
            }
            "place" => case.place = numbers(value)?,
            "sort" => {
                let sort = SORTS.iter().find(|sort| sort.1 == value);
                case.sort = sort.map(|sort| sort.0);
            }
            _ => return Err(format!("no line is called {name}")),
        }
    }
    Ok(case)
}

fn bytes(text: &str) -> Result<Vec<u8>, String> {
    if text.len() % 2 != 0 {
        return Err("a byte has two digits".into());
    }
    (0..text.len() / 2)
        .map(|n| u8::from_str_radix(&text[2 * n..2 * n + 2], 16).map_err(|e| e.to_string()))
        .collect()
}

fn numbers(text: &str) -> Result<Vec<u64>, String> {
    text.split_whitespace()
        .map(|word| u64::from_str_radix(word, 16).map_err(|e| e.to_string()))
        .collect()
}
