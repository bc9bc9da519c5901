//! The sample lines and their agreed answers, run through the program.

use std::fs::{self, File};
use std::path::{Path, PathBuf};
use std::process::Command;

fn samples() -> PathBuf {
    Path::new(env!("CARGO_MANIFEST_DIR")).join("../crates/samples")
}

fn agreed() -> String {
    fs::read_to_string(samples().join("stdout")).expect("the answers of the sample lines")
}

#[test]
fn answers_of_the_sample_lines() {
    let stdin = File::open(samples().join("stdin")).expect("the sample lines");
    let agreed = agreed();
    let output = Command::new(env!("CARGO_BIN_EXE_reference")).stdin(stdin).output().expect("the program runs");
    assert!(output.status.success());
    let answers = String::from_utf8(output.stdout).expect("a text");
    for (answer, agreed) in answers.lines().zip(agreed.lines()) {
        assert_eq!(answer, agreed);
    }
    assert_eq!(answers, agreed);
}

/// The lines `tokens` have document 000's byte rows as the paper has them. Calls that should write a row may ask for another one, and their
/// answer is then agreed too: so each row is compared with what is written, and with what is read.
#[test]
fn rows_of_document_000_are_read_and_written() {
    let agreed = agreed();
    let rows = agreed.lines().skip_while(|line| !line.starts_with("# Document 000 and 001: the byte rows")).skip(1);
    let rows = rows.take_while(|line| !line.starts_with('#')).filter_map(|line| line.strip_prefix("tokens ")?.split(':').next());
    let rows: Vec<&str> = rows.collect();
    assert_eq!(rows.len(), 9);
    let read = agreed.lines().filter(|line| line.starts_with("read "));
    let read: Vec<&str> = read.filter_map(|line| line.split([' ', ':']).nth(2)).collect();
    let written = agreed.lines().filter(|line| line.starts_with("write "));
    let written: Vec<&str> = written.filter_map(|line| line.split(" = ").nth(1)?.split(' ').next()).collect();
    for row in rows {
        // a file is the row and the delta byte
        let is_file = |file: &&str| file.len() == row.len() + 2 && file.starts_with(row);
        assert!(read.iter().any(is_file), "{row} is not read");
        assert!(written.iter().any(is_file), "{row} is not written");
    }
}
