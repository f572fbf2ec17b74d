//! The texts in examples/, held to the table in the README.md beside them: every text has its row, every row its text, and
//! `meshlines` begins its answer with the row's last cell and goes on as the slow engine does.

use std::collections::BTreeMap;
use std::fs;
use std::path::Path;

use crate::oracle::{expected, Program};

const README: &str = "README.md";

/// The table: the first line that each text is answered with.
type Rows = BTreeMap<String, String>;
type Texts = BTreeMap<String, Vec<u8>>;

/// Runs every text; true where nothing is wrong.
pub fn examples(folder: &Path, run: impl Fn(&[u8]) -> Result<Vec<u8>, String>) -> Result<bool, String> {
    let readme = fs::read_to_string(folder.join(README)).map_err(|error| format!("{}/{README}: {error}", folder.display()))?;
    let (rows, texts) = (table(&readme)?, texts(folder)?);
    let faults = faults(&rows, &texts, run);
    faults.iter().for_each(|fault| println!("harness: {}/{fault}", folder.display()));
    println!("harness: {} examples held to {} rows, {} faults", texts.len(), rows.len(), faults.len());
    Ok(faults.is_empty())
}

/// The rows of the one table of a page, below its head and the rule: a file's name first, a line last, both in code marks.
fn table(page: &str) -> Result<Rows, String> {
    let mut rows = Rows::new();
    for line in page.lines().filter(|line| line.starts_with('|')).skip(2) {
        let (name, first) = row(line).ok_or(format!("no row of the table: {line}"))?;
        if rows.insert(name.into(), first.into()).is_some() {
            return Err(format!("{name} has two rows"));
        }
    }
    if rows.is_empty() {
        return Err("the page has no table of examples".into());
    }
    Ok(rows)
}

fn row(line: &str) -> Option<(&str, &str)> {
    let cells = line.trim_end().strip_prefix('|')?.strip_suffix('|')?;
    let ((name, _), (_, first)) = (cells.split_once('|')?, cells.rsplit_once('|')?);
    Some((marked(name)?, marked(first)?))
}

/// What stands between code marks.
fn marked(cell: &str) -> Option<&str> {
    cell.trim().strip_prefix('`')?.strip_suffix('`').filter(|inner| !inner.is_empty())
}

/// Every file of the folder but the page.
fn texts(folder: &Path) -> Result<Texts, String> {
    let say = |error: std::io::Error| format!("{}: {error}", folder.display());
    let mut texts = Texts::new();
    for entry in fs::read_dir(folder).map_err(say)? {
        let entry = entry.map_err(say)?;
        let name = entry.file_name().to_string_lossy().into_owned();
        if name != README {
            texts.insert(name, fs::read(entry.path()).map_err(say)?);
        }
    }
    Ok(texts)
}

/// What is wrong, one sentence each.
fn faults(rows: &Rows, texts: &Texts, run: impl Fn(&[u8]) -> Result<Vec<u8>, String>) -> Vec<String> {
    let without_text =
        rows.keys().filter(|name| !texts.contains_key(*name)).map(|name| format!("{name} has a row and no text"));
    let wrong = texts.iter().filter_map(|(name, text)| {
        let Some(first) = rows.get(name) else { return Some(format!("{name} has no row")) };
        let fault = wrong_answer(first, text, run(text))?;
        Some(format!("{name}: {fault}"))
    });
    without_text.chain(wrong).collect()
}

fn wrong_answer(first: &str, text: &[u8], answer: Result<Vec<u8>, String>) -> Option<String> {
    let answer = match answer {
        Ok(answer) => answer,
        Err(failure) => return Some(failure),
    };
    let begins = String::from_utf8_lossy(&answer).lines().next().unwrap_or_default().to_string();
    if begins != first {
        Some(format!("the answer begins with {begins}, the table says {first}"))
    } else if answer != expected(Program::Meshlines, text) {
        Some("the slow engine's answer goes on in another way".into())
    } else {
        None
    }
}

#[cfg(test)]
mod tests {
    use super::*;

    const PAGE: &str = "# Examples\n\n| Text | What | First line |\n|---|---|---|\n| `two.txt` | n = 2 | `0F01` |\n";

    fn slow(text: &[u8]) -> Result<Vec<u8>, String> {
        Ok(expected(Program::Meshlines, text))
    }

    fn of(name: &str, text: &str) -> Texts {
        Texts::from([(name.to_string(), text.into())])
    }

    #[test]
    fn the_slow_engine_begins_as_the_table_says() {
        let folder = Path::new(env!("CARGO_MANIFEST_DIR")).join("../examples");
        assert_eq!(examples(&folder, slow), Ok(true));
    }

    #[test]
    fn a_page_without_a_proper_table_is_refused() {
        assert_eq!(table(PAGE).map(|rows| rows.len()), Ok(1));
        for more in ["| `two.txt` | again | `0F01` |\n", "| three.txt | no marks | `00003` |\n", "| `three.txt` |\n", "|\n"] {
            assert!(table(&format!("{PAGE}{more}")).is_err(), "{more}");
        }
        assert!(table("no table").is_err());
    }

    #[test]
    fn every_fault_is_seen() {
        let rows = table(PAGE).unwrap();
        assert_eq!(faults(&rows, &of("two.txt", "00002\n"), slow), [""; 0]);
        assert_eq!(faults(&rows, &Texts::new(), slow), ["two.txt has a row and no text"]);
        assert_eq!(faults(&rows, &of("one.txt", "00001\n"), slow), ["two.txt has a row and no text", "one.txt has no row"]);
        let other = "two.txt: the answer begins with 0F02, the table says 0F01";
        assert_eq!(faults(&rows, &of("two.txt", "00003\n"), slow), [other]);
        let longer = |_: &[u8]| Ok(b"0F01\n0F01\n".to_vec());
        let other = "two.txt: the slow engine's answer goes on in another way";
        assert_eq!(faults(&rows, &of("two.txt", "00002\n"), longer), [other]);
        assert_eq!(faults(&rows, &of("two.txt", "00002\n"), |_| Err("it failed".into())), ["two.txt: it failed"]);
    }
}
