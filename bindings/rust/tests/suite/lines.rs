//! The lines of the suite: fields between bars, and lines that stand for one of each type.

use std::fs;
use std::path::{Path, PathBuf};

/// A type of `kinds.txt` with its seven example values.
struct KindLine {
    /// The letter of the section: `N` for flat types, `C` for lists, `T` for the others.
    section: char,
    fields: Vec<String>,
}

/// The types that a line with `$T`, `$C` or `$N` stands for.
pub struct Kinds {
    kinds: Vec<KindLine>,
}

/// A line of a file, with the types and values filled in.
#[derive(Clone, Debug)]
pub struct Line {
    /// The file and the number of the line in it.
    pub place: String,
    pub text: String,
}

impl Line {
    pub fn fields(&self) -> Vec<&str> {
        self.text.split(" | ").collect()
    }
}

/// Returns the lines of a text with their numbers, without comments and empty lines.
fn content(text: &str) -> impl Iterator<Item = (usize, &str)> {
    let numbered = text.lines().enumerate().map(|(i, line)| (i + 1, line));
    numbered.filter(|(_, line)| !line.is_empty() && !line.starts_with('#'))
}

impl Kinds {
    /// Reads `kinds.txt`: sections that begin with `== flat`, `== lists` and `== others`.
    pub fn read(text: &str) -> Result<Kinds, String> {
        let (mut kinds, mut section) = (Vec::new(), None);
        for (number, line) in content(text) {
            let fields: Vec<String> = line.split(" | ").map(str::to_string).collect();
            match (line, section) {
                ("== flat", _) => section = Some('N'),
                ("== lists", _) => section = Some('C'),
                ("== others", _) => section = Some('T'),
                (_, Some(section)) if fields.len() == 8 => kinds.push(KindLine { section, fields }),
                _ => return Err(format!("kinds.txt:{number}: no type with seven values in a known section")),
            }
        }
        Ok(Kinds { kinds })
    }

    /// Returns the lines that a line stands for: itself, or one for each type of the sections that its letter names.
    pub fn fill(&self, line: &Line) -> Vec<Line> {
        let Some(letter) = ['T', 'C', 'N'].into_iter().find(|letter| line.text.contains(&format!("${letter}"))) else {
            return vec![line.clone()];
        };
        let chosen = self.kinds.iter().filter(|kind| match letter {
            'T' => true,
            'C' => kind.section != 'T',
            _ => kind.section == 'N',
        });
        chosen.map(|kind| Line { text: filled(&line.text, &kind.fields), ..line.clone() }).collect()
    }
}

/// Returns a text with the type and values of a kind in place of `$T`, `$C`, `$N` and `$1` to `$7`.
fn filled(text: &str, fields: &[String]) -> String {
    let mut parts = text.split('$');
    let mut filled = parts.next().unwrap_or_default().to_string();
    for part in parts {
        let number = match part.chars().next() {
            Some('T' | 'C' | 'N') => Some(0),
            Some(digit @ '1'..='7') => digit.to_digit(10).and_then(|digit| usize::try_from(digit).ok()),
            _ => None,
        };
        match number {
            Some(number) => filled += &(fields[number].clone() + &part[1..]),
            None => filled += &format!("${part}"),
        }
    }
    filled
}

/// Returns the folder of the suite in the repository.
pub fn folder() -> PathBuf {
    Path::new(env!("CARGO_MANIFEST_DIR")).join("../../tests")
}

fn read(path: &Path) -> Result<String, String> {
    fs::read_to_string(path).map_err(|error| format!("{}: {error}", path.display()))
}

/// Reads the lines of a file, each by itself or for each type that it stands for.
pub fn read_file(folder: &Path, path: &Path) -> Result<Vec<Line>, String> {
    let kinds = Kinds::read(&read(&folder.join("kinds.txt"))?)?;
    let name = path.file_name().unwrap_or_default().to_string_lossy();
    let text = read(path)?;
    let lines = content(&text).map(|(number, line)| Line { place: format!("{name}:{number}"), text: line.to_string() });
    Ok(lines.flat_map(|line| kinds.fill(&line)).collect())
}

/// Reads the lines of all files in the folder `rows` of a folder.
pub fn read_all(folder: &Path) -> Result<Vec<Line>, String> {
    let rows = folder.join("rows");
    let entries = fs::read_dir(&rows).map_err(|error| format!("{}: {error}", rows.display()))?;
    let mut files: Vec<PathBuf> = entries.filter_map(|entry| Some(entry.ok()?.path())).collect();
    files.retain(|path| path.extension().is_some_and(|extension| extension == "txt"));
    files.sort();
    let lines: Result<Vec<Vec<Line>>, String> = files.iter().map(|path| read_file(folder, path)).collect();
    Ok(lines?.concat())
}

#[test]
fn a_line_stands_for_one_of_each_type() {
    let text = "# types\n== flat\ni8 | 1 | 2 | 3 | 4 | 5 | 6 | 7\n== lists\n\nlist<i8> | [1] | [] | [3] | [4] | [5] | [6] | [7]\n== others\nfixed<1,i8> | a | b | c | d | e | f | g\n";
    let kinds = Kinds::read(text).expect("three types");
    let texts = |text: &str| -> Vec<String> {
        kinds.fill(&Line { place: String::new(), text: text.to_string() }).into_iter().map(|line| line.text).collect()
    };
    assert_eq!(
        texts("take | $T | [$7] | $"),
        ["take | i8 | [7] | $", "take | list<i8> | [[7]] | $", "take | fixed<1,i8> | [g] | $"]
    );
    assert_eq!(texts("take | list<$C> | [$2]"), ["take | list<i8> | [2]", "take | list<list<i8>> | [[]]"]);
    assert_eq!(texts("take | $N | $8"), ["take | i8 | $8"]);
    assert_eq!(texts("take | i64 | [$1]"), ["take | i64 | [$1]"]);
}

#[test]
fn a_misspelled_file_of_types_is_an_error() {
    for text in ["i8 | 1 | 2 | 3 | 4 | 5 | 6 | 7", "== flat\ni8 | 1 | 2", "== nested"] {
        assert!(Kinds::read(text).is_err(), "{text}");
    }
}
