//! The program `drive`, held to the second program on scripts of operations.

use reference::script::{answers, line};
use std::fs::{self, File};
use std::path::{Path, PathBuf};
use std::process::Command;

/// The program, where `rt ci`, or `rt run` in crates/drive, leaves it.
fn program() -> PathBuf {
    let program = Path::new(env!("CARGO_MANIFEST_DIR")).join("../crates/drive/out/drive");
    assert!(
        program.exists(),
        "{} is missing: `rt run` in crates/drive makes it",
        program.display()
    );
    program
}

/// What the program writes for this script, which is left in a file of this name.
pub fn drive(name: &str, script: &str) -> String {
    let path = file(name);
    fs::write(&path, script).expect("no room for the script");
    let script = File::open(&path).expect("no script");
    let ran = Command::new(program()).stdin(script).output();
    let ran = ran.expect("the program doesn't run");
    assert!(ran.status.success(), "{}: {}", path.display(), ran.status);
    String::from_utf8(ran.stdout).expect("other bytes than digits, spaces and LFs")
}

fn file(name: &str) -> PathBuf {
    Path::new(env!("CARGO_TARGET_TMPDIR")).join(format!("{name}.script"))
}

/// Compares whole outputs; gives each operation's number and its answer.
#[track_caller]
pub fn compare_script(name: &str, script: &str) -> Vec<(u64, Vec<u64>)> {
    let expected = answers(script);
    let written = drive(name, script);
    let mut lines = written.split_inclusive('\n');
    for (at, (operation, numbers)) in expected.iter().enumerate() {
        let (engine, second_program) = (lines.next().unwrap_or(""), line(numbers));
        if engine != second_program {
            let (path, at) = (file(name), at + 1);
            let path = path.display();
            panic!("{path}, operation {at}, which is {operation}:\nengine:         {engine}\nsecond program: {second_program}");
        }
    }
    let more: String = lines.collect();
    assert_eq!(more, "", "{}", file(name).display());
    expected
}
