//! The program: its text, and the binary itself.

use std::io::Write;
use std::process::{Command, Stdio};

use crate::blob::{hex, sealed, Blob};
use second::program_text;

const WHOLE: &str = "width 3 height 1 depth 1 kind 1 valid 3
blocks 1
cell 0 10
cell 1 11
cell 2 12
end 79
";

fn run(input: &[u8]) -> String {
    let mut program = Command::new(env!("CARGO_BIN_EXE_second"))
        .stdin(Stdio::piped())
        .stdout(Stdio::piped())
        .spawn()
        .unwrap();
    // The program may close its input early.
    let _ = program.stdin.take().unwrap().write_all(input);
    let output = program.wait_with_output().unwrap();
    String::from_utf8(output.stdout).unwrap()
}

#[test]
fn whole_blob() {
    assert_eq!(program_text(&Blob::whole().bytes()), WHOLE);
    assert_eq!(run(&Blob::whole().bytes()), WHOLE);
}

#[test]
fn refusals() {
    let mut bytes = Blob::whole().bytes();
    bytes[72] = 2;
    assert_eq!(program_text(&bytes), "refused 13 at 0\n");
    assert_eq!(run(&bytes), "refused 13 at 0\n");
    let bytes = sealed(bytes);
    assert_eq!(program_text(&bytes), "refused 8 at 72\n");
    assert_eq!(run(&bytes), "refused 8 at 72\n");
    // Other check bits in the flag byte.
    let mut bytes = Blob::whole().bytes();
    bytes[74] = 5;
    let bytes = sealed(bytes);
    assert_eq!(run(&bytes), "refused 8 at 74\n");
    assert_eq!(run(&[]), "refused 1 at 0\n");
    assert_eq!(run(&bytes[..78]), "refused 1 at 0\n");
    assert_eq!(run(&[0; 70]), "refused 2 at 0\n");
}

#[test]
fn input_too_long() {
    let mut bytes = Blob::whole().bytes();
    bytes.resize(16_384, 0);
    assert_eq!(run(&bytes), WHOLE);
    bytes.push(0);
    assert_eq!(run(&bytes), "refused 4 at 0\n");
    // Before anything else is looked at.
    assert_eq!(run(&[0; 16_385]), "refused 4 at 0\n");
    assert_eq!(run(&vec![0; 1 << 20]), "refused 4 at 0\n");
}

#[test]
fn too_many_cells() {
    let blob = |rows: u32, columns: u32, depth: u32| Blob {
        rows,
        columns,
        depth,
        valid: rows * columns,
        side: 1,
        max: 10f64.to_bits(),
        ..Blob::row(1, &[])
    };
    let lines = |text: String| text.lines().count();
    assert_eq!(lines(program_text(&blob(64, 64, 1).bytes())), 4096 + 3);
    assert_eq!(lines(program_text(&blob(1, 64, 64).bytes())), 4096 + 3);
    assert_eq!(lines(program_text(&blob(4096, 1, 1).bytes())), 4096 + 3);
    assert_eq!(program_text(&blob(17, 241, 1).bytes()), "refused 5 at 0\n");
    assert_eq!(program_text(&blob(1, 65, 64).bytes()), "refused 5 at 0\n");
    // Header refusals come first, and the mask later.
    let mut large = blob(17, 241, 1);
    large.valid = 5;
    assert_eq!(program_text(&large.bytes()), "refused 5 at 0\n");
    large.side = 17;
    assert_eq!(program_text(&large.bytes()), "refused 4 at 0\n");
}

#[test]
fn no_reuse() {
    let blob = Blob {
        valid: 2,
        ..Blob::row(3, &hex("0A 0C 00 03 0A"))
    };
    assert_eq!(program_text(&blob.bytes()), "refused 6 at 66\n");
}

#[test]
fn invalid_cells_and_other_bodies() {
    let blob = Blob {
        depth: 2,
        valid: 2,
        mask: hex("01 00 A0 00 80"),
        kind: 7,
        min: (-2f64).to_bits(),
        max: (-2f64).to_bits(),
        ..Blob::row(3, &[])
    };
    let text = "width 3 height 1 depth 2 kind 7 valid 2
blocks 0
cell 0 13835058055282163712
cell 1 13835058055282163712
cell 2 -
cell 3 -
cell 4 13835058055282163712
cell 5 13835058055282163712
end 75
";
    assert_eq!(program_text(&blob.bytes()), text);
    let empty = Blob {
        valid: 0,
        mask: Vec::new(),
        depth: 1,
        ..blob
    };
    let text = "width 3 height 1 depth 1 kind 7 valid 0
blocks 0
cell 0 -
cell 1 -
cell 2 -
end 70
";
    assert_eq!(program_text(&empty.bytes()), text);
}
