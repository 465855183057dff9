//! Counts by operation and answer.

use crate::case::Op;
use crate::codes::mode_at;

/// Numbers of the columns: accepted, then the refusals that there are.
const ANSWERS: [u32; 13] = [0, 1, 2, 3, 4, 5, 6, 7, 8, 9, 10, 11, 13];

#[derive(Clone, Default)]
pub struct Table([[u64; ANSWERS.len()]; Op::ALL.len()]);

impl Table {
    pub fn count(&mut self, op: Op, answer: u32) {
        let column = ANSWERS.iter().position(|&number| number == answer);
        self.0[op as usize][column.unwrap_or(ANSWERS.len() - 1)] += 1;
    }

    pub fn of(&self, op: Op, answer: u32) -> u64 {
        let column = ANSWERS.iter().position(|&number| number == answer);
        column.map_or(0, |column| self.0[op as usize][column])
    }

    pub fn total(&self) -> u64 {
        self.0.iter().flatten().sum()
    }

    /// In the form of the documents.
    pub fn text(&self) -> String {
        let mut text = String::from("| operation | calls | accepted |");
        for number in &ANSWERS[1..] {
            text += &format!(" {number} |");
        }
        text += "\n|---|---|---|";
        text += &"---|".repeat(ANSWERS.len() - 1);
        text += "\n";
        for op in Op::ALL {
            let row = &self.0[op as usize];
            let calls: u64 = row.iter().sum();
            if calls == 0 {
                continue;
            }
            text += &format!("| `{}` | {} |", op.name(), grouped(calls));
            for &count in row {
                let shown = if count == 0 {
                    "-".into()
                } else {
                    grouped(count)
                };
                text += &format!(" {shown} |");
            }
            text += "\n";
        }
        text
    }
}

/// Accepted whole reads by kind and body.
#[derive(Clone, Default)]
pub struct Bodies([[u64; 5]; 8]);

impl Bodies {
    /// Counts an accepted whole read, given what it said.
    pub fn count(&mut self, blob: &[u8], said: &[u64]) {
        let Ok(header) = second::read_header(blob) else {
            return;
        };
        let ranges = second::read_ranges(blob, &header);
        let constant = ranges.is_ok_and(|ranges| ranges.constant);
        let in_codes = ranges.is_ok_and(|r| mode_at(blob, &header, r.place).is_some());
        let body = match said[lerc2::raw::HEADER] {
            0 if header.valid == 0 => 0,
            0 if constant => 1,
            0 if in_codes => 4,
            0 => 2,
            _ => 3,
        };
        self.0[header.kind as usize][body] += 1;
    }

    pub fn text(&self) -> String {
        let mut text = String::from("| kind | empty | constant | raw | blocks | Huffman |\n");
        text += "|---|---|---|---|---|---|\n";
        for (kind, row) in self.0.iter().enumerate() {
            let counts = row.map(grouped).join(" | ");
            text += &format!("| {kind} | {counts} |\n");
        }
        text
    }
}

/// Digits in groups of three.
pub fn grouped(number: u64) -> String {
    let digits = number.to_string();
    let mut text = String::new();
    for (n, digit) in digits.chars().enumerate() {
        if n > 0 && (digits.len() - n) % 3 == 0 {
            text.push(',');
        }
        text.push(digit);
    }
    text
}
