//! The proved table of 01's examples says what the files of examples/letters say.

use std::collections::{BTreeMap, BTreeSet};
use std::fs;
use std::path::Path;

const TABLE: &str = include_str!("../../../crates/examples/specs/Table.antt");

/// Each name of the table, and what stands after its `=`.
struct Table<'a>(BTreeMap<&'a str, &'a str>);

impl<'a> Table<'a> {
    /// A definition goes to the next empty line.
    fn of(text: &'a str) -> Table<'a> {
        let definition = |block: &'a str| {
            let (_, equation) = block.split_once("abbrev pub ")?.1.split_once('\n')?;
            let (name, body) = equation.split_once('=')?;
            Some((name.trim(), body.trim()))
        };
        Table(text.split("\n\n").filter_map(definition).collect())
    }

    /// A list of lines: `"line" ∷ list`, `[]`, `set list k "line"`, `E.field` or a name.
    fn lines(&self, list: &str) -> Vec<String> {
        let list = list.trim();
        if list == "[]" {
            return vec![];
        }
        if let Some(quoted) = list.strip_prefix('"') {
            let (line, rest) = quoted.split_once('"').expect("a line");
            let rest = rest.trim().strip_prefix('∷').expect("a list");
            return [vec![line.to_string()], self.lines(rest)].concat();
        }
        if let Some(set) = list.strip_prefix("set ") {
            let words: Vec<&str> = set.splitn(3, ' ').collect();
            let mut lines = self.lines(words[0]);
            let at: usize = words[1].parse().expect("the number of a line");
            lines[at] = words[2].trim_matches('"').to_string();
            return lines;
        }
        match list.split_once('.') {
            Some((example, field)) => self.field(example, field),
            None => self.lines(self.0[list]),
        }
    }

    /// A field of an example, which is a record.
    fn field(&self, example: &str, field: &str) -> Vec<String> {
        let record = self.0[example].strip_prefix("record {");
        let record = record.and_then(|text| text.strip_suffix('}'));
        let fields = record.expect("a record").split(';');
        let equations = fields.filter_map(|equation| equation.split_once('='));
        let mut values = equations.filter(|(name, _)| name.trim() == field);
        self.lines(values.next().expect("such a field").1)
    }

    /// The names of the examples, in order.
    fn examples(&self) -> Vec<&str> {
        let names = self.0["table"].split('∷').map(str::trim);
        names.filter(|name| *name != "[]").collect()
    }
}

fn text(lines: &[String]) -> String {
    lines.iter().map(|line| format!("{line}\n")).collect()
}

#[test]
fn the_table_of_examples() {
    let table = Table::of(TABLE);
    let letters = Path::new(env!("CARGO_MANIFEST_DIR")).join("../examples/letters");
    let mut names = BTreeSet::new();
    for example in table.examples() {
        let field = |name| table.field(example, name);
        let job = vec!["(job)".to_string()];
        let sheet = [field("old"), field("new"), job, field("done")].concat();
        for (kind, lines) in [("sheet", sheet), ("listing", field("listing"))] {
            let name = format!("{example}.{kind}");
            let file = fs::read_to_string(letters.join(&name)).expect(&name);
            assert_eq!(text(&lines), file, "{name}");
            names.insert(name);
        }
    }
    assert_eq!(table.examples().concat(), "ABCDEFGHIJKL");
    let files = fs::read_dir(letters).expect("examples/letters");
    let names_of = |file: std::io::Result<fs::DirEntry>| file.map(|f| f.file_name());
    for name in files.map(|file| names_of(file).expect("a file")) {
        assert!(names.contains(name.to_str().unwrap_or("")), "{name:?}");
    }
}
