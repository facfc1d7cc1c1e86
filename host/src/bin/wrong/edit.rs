//! The must-fail edits, as `rt must-fail` reads them.

use std::fmt;
use std::fs;
use std::path::{Path, PathBuf};

/// Edits of what no operation looks at: what `prepare` tells of a refused job, and the
/// listing of a number that is no row's.
const UNSEEN: [&str; 3] = [
    "kept_untold_when_refused",
    "line_untold_when_refused",
    "number_of_no_row_not_listed",
];

/// The repository.
pub fn root() -> PathBuf {
    Path::new(env!("CARGO_MANIFEST_DIR")).join("..")
}

/// One text of a file of the crate, and what takes its place.
pub struct Change {
    pub file: String,
    pub old: String,
    pub new: String,
}

impl Change {
    /// Of a function or a constant; else of what is said of them.
    pub fn is_code(&self) -> bool {
        self.file.starts_with("src/")
    }

    /// Of a proof of a function, which names what its code has.
    fn is_proof(&self) -> bool {
        ["/Answers.antt", "/Invariants.antt"]
            .iter()
            .any(|end| self.file.ends_with(end))
    }
}

pub struct Edit {
    pub crate_name: String,
    label: String,
    pub changes: Vec<Change>,
}

impl fmt::Display for Edit {
    fn fmt(&self, to: &mut fmt::Formatter) -> fmt::Result {
        write!(to, "{}/{}", self.crate_name, self.label)
    }
}

impl Edit {
    fn of(crate_name: &str, path: &Path) -> Edit {
        let text = fs::read_to_string(path).expect("no edit");
        let (mut file, mut old, mut changes) = ("", "", Vec::new());
        for line in text.lines() {
            if let Some(rest) = line.strip_prefix("file: ") {
                file = rest;
            } else if let Some(rest) = line.strip_prefix("old: ") {
                old = rest;
            } else if let Some(rest) = line.strip_prefix("new:") {
                let new = rest.strip_prefix(' ').unwrap_or(rest);
                let [file, old, new] = [file, old, new].map(String::from);
                changes.push(Change { file, old, new });
            }
        }
        let label = path.file_stem().expect("no name").to_string_lossy();
        Edit {
            crate_name: crate_name.to_string(),
            label: label.into_owned(),
            changes,
        }
    }

    /// Changes code, and code whose answers drive shows: not the C form. Lines of its
    /// proof may come along.
    pub fn is_driven(&self) -> bool {
        // a clause says one of these words, and no line of code does
        let clause = |text: &str| {
            ["≡", "requires", ".now"]
                .iter()
                .any(|word| text.contains(word))
        };
        let code = |change: &Change| change.is_code() && !clause(&change.old);
        !["engine", "counts"].contains(&self.crate_name.as_str())
            && !UNSEEN.contains(&self.label.as_str())
            && self.changes.iter().any(code)
            && self.changes.iter().all(|c| code(c) || c.is_proof())
    }
}

/// The edits of these crates, or of all, in the order of their names.
pub fn all(names: &[String]) -> Vec<Edit> {
    let crates = root().join("crates");
    for name in names {
        assert!(crates.join(name).is_dir(), "there is no crate {name}");
    }
    let mut edits = Vec::new();
    for folder in sorted(&crates) {
        let name = folder.file_name().expect("no name").to_string_lossy();
        if names.is_empty() || names.iter().any(|wanted| *wanted == name) {
            let paths = sorted(&folder.join("must-fail"));
            edits.extend(paths.iter().map(|path| Edit::of(&name, path)));
        }
    }
    edits
}

/// What a folder holds; nothing where there is none.
pub fn sorted(folder: &Path) -> Vec<PathBuf> {
    let entries = fs::read_dir(folder).into_iter().flatten();
    let mut paths: Vec<PathBuf> = entries
        .map(|entry| entry.expect("no entry").path())
        .collect();
    paths.sort();
    paths
}
