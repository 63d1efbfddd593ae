// The must-fail edits: each changes functions of its crate, each function by one error. What the prover refuses of each stands beside them,
// in `refused.md`, for the crate's text as it is.
use std::{fs, path::Path, path::PathBuf};

use crate::documents;

// One wrong program: `wrong:` is its name, `refused:` the function whose own proof no longer holds.
pub struct Wrong {
    pub name: String,
    pub refused: String,
}

// One file of a crate's folder must-fail.
pub struct Edit {
    pub crate_name: String,
    pub label: String,
    pub wrongs: Vec<Wrong>,
    // how many places of the code it changes
    pub changes: usize,
}

fn wrongs(text: &str) -> Vec<Wrong> {
    let mut found: Vec<Wrong> = Vec::new();
    for line in text.lines() {
        if let Some(name) = line.strip_prefix("wrong: ") {
            found.push(Wrong {
                name: name.to_owned(),
                refused: String::new(),
            });
        } else if let (Some(function), Some(last)) =
            (line.strip_prefix("refused: "), found.last_mut())
        {
            last.refused = function.to_owned();
        }
    }
    found
}

// The edits of a crate, by their labels.
pub fn of(crate_name: &str) -> Vec<Edit> {
    let folder = documents::file("crates").join(crate_name).join("must-fail");
    let entries = fs::read_dir(folder).into_iter().flatten();
    let mut edits: Vec<Edit> = entries
        .map(|entry| entry.unwrap().path())
        .filter(|path| path.extension().is_some_and(|ending| ending == "edit"))
        .map(|path| {
            let text = fs::read_to_string(&path).unwrap();
            Edit {
                crate_name: crate_name.to_owned(),
                label: path.file_stem().unwrap().to_str().unwrap().to_owned(),
                wrongs: wrongs(&text),
                changes: text.lines().filter(|line| line.starts_with("new:")).count(),
            }
        })
        .collect();
    edits.sort_by(|a, b| a.label.cmp(&b.label));
    edits
}

// What the prover says where a proof file names what the code no longer has, and of what depends on that: it shows nothing of the contract.
const MISFITS: [&str; 4] = [
    "that can be named",
    "has no field",
    "is not in scope",
    "which was not admitted",
];

// Whether a folder of functions that call each other, named after all of them, is one of this function.
fn in_cycle(cycle: &str, name: &str) -> bool {
    format!("_{cycle}_").contains(&format!("_{name}_"))
}

// Of a line of a prover's log that stands at a place in the proof files of a function: the goal that is refused there, or None where the
// file only no longer fits the code. In the files of functions that call each other a goal begins with its function's name.
fn goal_refused<'a>(line: &'a str, module: &str, name: &str) -> Option<Option<&'a str>> {
    let (path, rest) = line.strip_prefix("./proofs/")?.split_once(".antt:")?;
    let (folder, _) = path.rsplit_once('/')?;
    let (above, last) = folder.rsplit_once('/').unwrap_or(("", folder));
    let (_, said) = rest.split_once(": error: ")?;
    let goal = said
        .strip_prefix('`')
        .and_then(|rest| rest.split_once("`: "));
    let goal = goal.map_or("", |(goal, _)| goal);
    let own = last == name
        || last.strip_prefix('+').is_some_and(|cycle| {
            cycle == name || in_cycle(cycle, name) && goal.starts_with(&format!("{name}-"))
        });
    let fits = !goal.is_empty() && !MISFITS.iter().any(|misfit| said.contains(misfit));
    (above == module && own).then_some(fits.then_some(goal))
}

// Of goals, one of what the function ensures where it returns, if there is one, or the first.
fn most_telling<'a>(goals: &[&'a str]) -> Option<&'a str> {
    let of_result = |goal: &&&str| goal.contains("returns");
    goals.iter().find(of_result).or(goals.first()).copied()
}

// A goal that the lines before the last line on a function say is not proved, where that line says that it has no proof or none that holds:
// one that is false, if that is said of one. Of a function that only calls a wrong one nothing is said but that.
fn goal_not_proved<'a>(log: &'a str, told: &str) -> Option<&'a str> {
    let (mut goals, mut false_ones) = (Vec::new(), Vec::new());
    for line in log.lines() {
        if line.starts_with(told) {
            return most_telling(&false_ones).or(most_telling(&goals));
        } else if line.starts_with("fn ") {
            goals.clear();
            false_ones.clear();
        } else if line.starts_with("note: src/") && line.contains(": it is not proved that ") {
            let goal = line
                .split_once("(`")
                .and_then(|(_, rest)| rest.split_once("`)"));
            let goal = goal.map_or("", |(goal, _)| goal);
            goals.push(goal);
            false_ones.extend(line.contains("this goal is false").then_some(goal));
        }
    }
    None
}

// The goal by which a prover's log tells that a function's own proof does not hold: one that is refused, or one that is not proved although
// the function's proof files still fit the code.
pub fn own_goal<'a>(log: &'a str, crate_name: &str, function: &str) -> Option<&'a str> {
    let (module, name) = function.rsplit_once("::").unwrap_or(("", function));
    let module = module.replace("::", "/");
    let own = log
        .lines()
        .filter_map(|line| goal_refused(line, &module, name));
    let own: Vec<Option<&str>> = own.collect();
    if own.is_empty() {
        return goal_not_proved(log, &format!("fn {crate_name}::{function}: no"));
    }
    let refused: Vec<&str> = own.into_iter().flatten().collect();
    most_telling(&refused)
}

// The files below a folder, in the order of their names.
fn files_below(folder: &Path) -> Vec<PathBuf> {
    let entries = fs::read_dir(folder).into_iter().flatten();
    let mut paths: Vec<PathBuf> = entries.map(|entry| entry.unwrap().path()).collect();
    paths.sort();
    let below = |path: PathBuf| match path.is_dir() {
        true => files_below(&path),
        false => vec![path],
    };
    paths.into_iter().flat_map(below).collect()
}

// A number that tells a crate's text and its edits from others: FNV-1a over the names and bytes of its files.
fn sum(crate_name: &str) -> u64 {
    let folder = documents::file("crates").join(crate_name);
    let parts = ["src", "specs", "proofs", "must-fail"];
    let files = parts
        .iter()
        .flat_map(|part| files_below(&folder.join(part)));
    let mut sum: u64 = 0xcbf2_9ce4_8422_2325;
    for file in files.filter(|file| file.extension().is_none_or(|ending| ending != "md")) {
        let name = file.strip_prefix(&folder).unwrap().to_str().unwrap();
        let text = fs::read(&file).unwrap();
        for byte in name.bytes().chain([0]).chain(text).chain([0]) {
            sum = (sum ^ u64::from(byte)).wrapping_mul(0x0100_0000_01b3);
        }
    }
    sum
}

// What `refused.md` says before its table.
fn head(crate_name: &str) -> String {
    let sum = sum(crate_name);
    format!(
        "# Refused\n\n\
        For each wrong program of the edits here a goal of the function that it makes wrong, which the prover refuses. Written by\n\
        `host/try-edits {crate_name}`, for the text of the crate and of its edits whose sum is {sum:016x}.\n\n\
        | edit | wrong program | function | goal |\n|---|---|---|---|\n"
    )
}

fn row(edit: &Edit, wrong: &Wrong, goal: &str) -> String {
    format!(
        "| {} | {} | `{}` | `{goal}` |",
        edit.label, wrong.name, wrong.refused
    )
}

/// The file that says what is refused of a crate's edits.
pub fn refused_file(crate_name: &str) -> PathBuf {
    documents::file("crates")
        .join(crate_name)
        .join("must-fail/refused.md")
}

/// That file's text by the prover's logs, or the wrong programs that no goal of their own refuses.
pub fn refused(crate_name: &str, log_of: impl Fn(&Edit) -> String) -> Result<String, Vec<String>> {
    let (mut text, mut others) = (head(crate_name), Vec::new());
    for edit in of(crate_name) {
        let log = log_of(&edit);
        for wrong in &edit.wrongs {
            match own_goal(&log, crate_name, &wrong.refused) {
                Some(goal) => text += &(row(&edit, wrong, goal) + "\n"),
                None => others.push(format!("{crate_name}/{}: {}", edit.label, wrong.name)),
            }
        }
    }
    if others.is_empty() {
        Ok(text)
    } else {
        Err(others)
    }
}

/// Why that file does not fit the crate's text and edits, if it does not.
pub fn misfit(crate_name: &str, text: &str) -> Option<String> {
    let Some(rows) = text.strip_prefix(&head(crate_name)) else {
        return Some("it is of another text".to_owned());
    };
    let edits = of(crate_name);
    let wrongs = edits
        .iter()
        .flat_map(|edit| edit.wrongs.iter().map(move |wrong| (edit, wrong)));
    let begins: Vec<String> = wrongs
        .map(|(edit, wrong)| row(edit, wrong, "").trim_end_matches("` |").to_owned())
        .collect();
    let rows: Vec<&str> = rows.lines().collect();
    if rows.len() != begins.len() {
        return Some("it has another number of rows".to_owned());
    }
    let is_of = |(row, begin): (&&str, &String)| {
        row.strip_prefix(begin.as_str())
            .and_then(|rest| rest.strip_suffix("` |"))
            .is_some_and(|goal| !goal.is_empty() && !goal.contains('`'))
    };
    let wrong = rows.iter().zip(&begins).find(|pair| !is_of(*pair));
    wrong.map(|(row, _)| format!("its row is of another edit: {row}"))
}
