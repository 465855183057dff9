//! The tables of two runs in one, as of two archives: what the proved reader
//! costs in each, and how many times the first the second is.

use std::error::Error;
use std::fs;
use std::path::Path;

/// The numbers that are taken from a table, of the proved reader.
const NUMBERS: [&str; 2] = ["proved ns", "proved instr"];

/// Joins what two runs wrote; a side is called as its file.
pub fn files(before: &str, after: &str) -> Result<(), Box<dyn Error>> {
    let read = |file: &str| -> Result<(String, Table), Box<dyn Error>> {
        let text = fs::read_to_string(file).map_err(|error| format!("{file}: {error}"))?;
        let name = Path::new(file).file_stem().unwrap_or_default();
        let table = Table::of(&text).ok_or_else(|| format!("{file}: no table of a run"))?;
        Ok((name.to_string_lossy().into_owned(), table))
    };
    let (before, after) = (read(before)?, read(after)?);
    let joined = joined((&before.0, &before.1), (&after.0, &after.1));
    if joined.lines().count() < 3 {
        return Err("the two have no image in common".into());
    }
    print!("{joined}");
    Ok(())
}

/// The first table of a text.
struct Table {
    names: Vec<String>,
    rows: Vec<Vec<String>>,
}

impl Table {
    fn of(text: &str) -> Option<Table> {
        let mut lines = text
            .lines()
            .skip_while(|line| !line.starts_with("| image |"));
        let names = cells(lines.next()?);
        // The line under the names is a rule.
        let rows = lines.skip(1).take_while(|line| line.starts_with('|'));
        let rows = rows.map(cells).collect();
        Some(Table { names, rows })
    }

    fn has(&self, name: &str) -> bool {
        self.names.iter().any(|other| other == name)
    }

    fn cell<'a>(&self, row: &'a [String], name: &str) -> Option<&'a str> {
        let at = self.names.iter().position(|other| other == name)?;
        row.get(at).map(String::as_str)
    }

    /// The same image, read the same way.
    fn row(&self, key: &[String]) -> Option<&[String]> {
        let same = |row: &&Vec<String>| row[..2] == *key;
        self.rows.iter().find(same).map(Vec::as_slice)
    }
}

fn cells(line: &str) -> Vec<String> {
    let inner = line.trim().trim_matches('|');
    inner.split('|').map(|cell| cell.trim().into()).collect()
}

/// Of the images and ways that both have.
fn joined(before: (&str, &Table), after: (&str, &Table)) -> String {
    let has = |name: &&str| before.1.has(name) || after.1.has(name);
    let numbers: Vec<&str> = NUMBERS.into_iter().filter(has).collect();
    let mut text = String::from("| image | way |");
    for name in &numbers {
        let unit = name.trim_start_matches("proved ");
        text += &format!(
            " {} {unit} | {} {unit} | times, {unit} |",
            before.0, after.0
        );
    }
    text += "\n|---|---|";
    text += &"---|".repeat(3 * numbers.len());
    text += "\n";
    for row in &before.1.rows {
        let Some(other) = after.1.row(&row[..2]) else {
            continue;
        };
        text += &format!("| {} | {} |", row[0], row[1]);
        for name in &numbers {
            let one = before.1.cell(row, name).unwrap_or("-");
            let two = after.1.cell(other, name).unwrap_or("-");
            text += &format!(" {one} | {two} | {} |", times(one, two));
        }
        text += "\n";
    }
    text
}

fn times(one: &str, two: &str) -> String {
    match (one.parse::<f64>(), two.parse::<f64>()) {
        (Ok(one), Ok(two)) if one > 0.0 => format!("{:.2}", two / one),
        _ => "-".into(),
    }
}

#[cfg(test)]
mod tests {
    use super::{joined, Table};

    #[test]
    fn by_image_and_way() {
        let before = "x\n| image | way | proved ns | proved instr | bar |\n|---|---|---|---|---|\n\
                      | a | read | 2.00 | 10.00 | 3 |\n| b | read | 1.00 | - | 3 |\n\n| c | d |\n";
        let after = "| image | way | proved instr | bar |\n|---|---|---|---|\n\
                     | b | read | 4.00 | 3 |\n| a | walk | 1.00 | 3 |\n| a | read | 5.00 | 3 |\n";
        let [before, after] = [before, after].map(|text| Table::of(text).unwrap());
        let text = joined(("one", &before), ("two", &after));
        let lines: Vec<&str> = text.lines().skip(2).collect();
        let rows = [
            "| a | read | 2.00 | - | - | 10.00 | 5.00 | 0.50 |",
            "| b | read | 1.00 | - | - | - | 4.00 | - |",
        ];
        assert_eq!(lines, rows);
        assert!(text.starts_with("| image | way | one ns | two ns | times, ns | one instr |"));
        // Times that neither has are left out.
        let text = joined(("one", &after), ("two", &after));
        assert!(text.starts_with("| image | way | one instr | two instr | times, instr |\n"));
        assert!(Table::of("| bar |\n").is_none());
    }
}
