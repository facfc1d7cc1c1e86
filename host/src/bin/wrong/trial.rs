//! The edited program, run on scripts.

use crate::edit::{root, sorted, Edit};
use crate::scripts::Script;
use std::env;
use std::fmt;
use std::fs;
use std::path::{Path, PathBuf};
use std::process::Command;
use std::thread;

/// All scripts together take no longer.
const SECONDS: &str = "600";

pub enum Verdict {
    /// On the script of this number, the first that tells, and how.
    Wrong {
        script: usize,
        how: String,
    },
    Right,
    /// What the compiler said.
    NotRun(String),
}

impl fmt::Display for Verdict {
    fn fmt(&self, to: &mut fmt::Formatter) -> fmt::Result {
        match self {
            Verdict::Wrong { script, how } => write!(to, "wrong, script {script}: {how}"),
            Verdict::Right => write!(to, "ANSWERS ALL RIGHTLY"),
            Verdict::NotRun(said) => write!(to, "NOT RUN: {said}"),
        }
    }
}

pub fn workers() -> usize {
    thread::available_parallelism().map_or(1, usize::from)
}

/// A copy of the code, in which one edit at a time is made.
pub struct Trial {
    folder: PathBuf,
}

impl Trial {
    pub fn new(number: usize) -> Trial {
        // beside the repository: `rt ci` wants no code but that of its crates
        let folder =
            env::temp_dir().join(format!("wrong-programs-{}/{number}", std::process::id()));
        let _ = fs::remove_dir_all(&folder);
        for from in sorted(&root().join("crates")) {
            let name = from.file_name().expect("no name");
            copy(
                &from.join("src"),
                &folder.join("crates").join(name).join("src"),
            );
        }
        fs::copy(root().join("crates.txt"), folder.join("crates.txt")).expect("no crates.txt");
        Trial { folder }
    }

    /// Runs the edited program on one script after the other, up to the first
    /// that it answers wrongly.
    pub fn run(&self, edit: &Edit, scripts: &[Script]) -> Verdict {
        let own = self.folder.join("crates").join(&edit.crate_name);
        let before: Vec<(PathBuf, String)> = edit
            .changes
            .iter()
            .filter(|change| change.is_code())
            .map(|change| {
                let path = own.join(&change.file);
                let text = fs::read_to_string(&path).expect("an edit of no file");
                assert_eq!(text.matches(&change.old).count(), 1, "{edit}");
                fs::write(&path, text.replace(&change.old, &change.new)).expect("no room");
                (path, text)
            })
            .collect();
        let verdict = self.first_wrong(scripts);
        for (path, text) in before.iter().rev() {
            fs::write(path, text).expect("no room");
        }
        verdict
    }

    /// The first script that the program, as it stands here, answers wrongly.
    pub fn first_wrong(&self, scripts: &[Script]) -> Verdict {
        let said = self.try_drive(scripts);
        let lines: Vec<&str> = said.lines().collect();
        for (script, number) in scripts.iter().zip(1..) {
            let case = format!("case={} ", name(number));
            let Some(end) = lines.iter().position(|line| line.starts_with(&case)) else {
                return Verdict::NotRun(lines.first().unwrap_or(&"").to_string());
            };
            let line = lines[end];
            let how = if line.contains("run=fault") {
                "a fault".to_string()
            } else if line.contains("output=differs") {
                how_wrong(&lines[..end], script)
            } else if line.contains("output=expected") {
                continue;
            } else {
                return Verdict::NotRun(line.to_string());
            };
            return Verdict::Wrong {
                script: number,
                how,
            };
        }
        Verdict::Right
    }

    /// What `rt try` says of the program and these scripts: it compiles it once,
    /// with checks, and runs it on each.
    fn try_drive(&self, scripts: &[Script]) -> String {
        let drive = self.folder.join("crates/drive");
        let cases = self.folder.join("cases");
        fs::create_dir_all(&cases).expect("no room");
        for (script, number) in scripts.iter().zip(1..) {
            fs::write(cases.join(name(number)), &script.text).expect("no room");
            let answer = cases.join(format!("{}.stdout", name(number)));
            fs::write(answer, script.answer()).expect("no room");
        }
        // one step: the interpreter, which would be slow, gives no answer
        let ran = Command::new("timeout")
            .args([SECONDS, "rt", "try", "--steps", "1", "--cases"])
            .arg(&cases)
            .current_dir(drive)
            .output()
            .expect("rt doesn't run");
        String::from_utf8_lossy(&[ran.stdout, ran.stderr].concat()).into_owned()
    }
}

/// A script's file: they are run in the order of their names.
fn name(number: usize) -> String {
    format!("{number:03}")
}

/// Where the program first writes otherwise: the last that was said before the
/// script's own line.
fn how_wrong(said: &[&str], script: &Script) -> String {
    let at = |line: &&str| -> Option<usize> {
        let (_, byte) = line.split_once(": at byte ")?;
        byte.split(',').next()?.parse().ok()
    };
    match said.iter().rev().find_map(at) {
        Some(byte) => {
            let (line, operation) = script.operation_at(byte);
            format!("line {line}, operation {operation}")
        }
        None => "the output differs".to_string(),
    }
}

fn copy(from: &Path, to: &Path) {
    fs::create_dir_all(to).expect("no room");
    for path in sorted(from) {
        let to = to.join(path.file_name().expect("no name"));
        if path.is_dir() {
            copy(&path, &to);
        } else {
            fs::copy(&path, &to).expect("no room");
        }
    }
}
