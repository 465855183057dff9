//! The declarations of `src/raw.rs` are those of `include/lerc2.h`.

use std::collections::BTreeMap;

/// Types of the parameters, and of the result, by the function's name.
type Declared = BTreeMap<String, Vec<String>>;

#[test]
fn as_in_the_header_file() {
    let c = of_c(include_str!("../../../include/lerc2.h"));
    let rust = of_rust(include_str!("../src/raw.rs"));
    assert_eq!(c.len(), 18);
    assert_eq!(c, rust);
}

fn of_c(text: &str) -> Declared {
    let mut code = String::new();
    for (n, part) in text.split("/*").enumerate() {
        code += if n == 0 {
            part
        } else {
            part.split_once("*/").map_or("", |(_, after)| after)
        };
    }
    let mut declared = Declared::new();
    for statement in code.split(';') {
        let Some((front, rest)) = statement.split_once('(') else {
            continue;
        };
        let mut front = front.split_whitespace().rev();
        let (Some(name), Some(result)) = (front.next(), front.next()) else {
            continue;
        };
        if !name.starts_with("lerc2_") {
            continue;
        }
        let parameters = rest.trim_end().trim_end_matches(')').split(',');
        let mut types: Vec<String> = parameters.map(c_type).collect();
        types.push(c_word(result));
        declared.insert(name.into(), types);
    }
    declared
}

/// The type of a parameter, whose last word is its name.
fn c_type(parameter: &str) -> String {
    let words: Vec<&str> = parameter.split_whitespace().collect();
    let pointer = parameter.contains('*');
    let constant = words[0] == "const";
    let word = c_word(words[usize::from(constant)]);
    match (pointer, constant) {
        (true, true) => format!("*const {word}"),
        (true, false) => format!("*mut {word}"),
        _ => word,
    }
}

fn c_word(word: &str) -> String {
    match word {
        "uint8_t" => "u8",
        "uint16_t" => "u16",
        "uint32_t" => "u32",
        "uint64_t" => "u64",
        "size_t" => "usize",
        other => other,
    }
    .into()
}

fn of_rust(text: &str) -> Declared {
    let mut declared = Declared::new();
    for part in text.split("pub fn ").skip(1) {
        let Some((name, rest)) = part.split_once('(') else {
            continue;
        };
        if !name.starts_with("lerc2_") {
            continue;
        }
        let (parameters, rest) = rest.split_once(')').expect("a list ends");
        let result = rest
            .trim_start_matches(" -> ")
            .split(';')
            .next()
            .expect("a result");
        let mut types: Vec<String> = parameters
            .split(',')
            .filter_map(|parameter| parameter.split_once(": "))
            .map(|(_, word)| word.trim().to_string())
            .collect();
        types.push(result.to_string());
        declared.insert(name.into(), types);
    }
    declared
}
