// docs/PROMISES.md against the crates: a row for each public function, as many marked wrong programs
// as the must-fail edits have, the laws of the wrong definitions, and no name of anything that does not exist.
use std::{
    collections::{BTreeMap, BTreeSet},
    fs,
    path::{Path, PathBuf},
};

use host::{
    documents::{self, crates},
    edits,
};

type Names = BTreeSet<String>;

// The files below a folder with such an ending; none where there is no such folder.
fn files(folder: &Path, ending: &str) -> Vec<PathBuf> {
    let mut found = Vec::new();
    for entry in fs::read_dir(folder).into_iter().flatten() {
        let path = entry.unwrap().path();
        if path.is_dir() {
            found.extend(files(&path, ending));
        } else if path.extension().is_some_and(|own| own == ending) {
            found.push(path);
        }
    }
    found.sort();
    found
}

fn text(file: &Path) -> String {
    fs::read_to_string(file).unwrap_or_else(|error| panic!("{}: {error}", file.display()))
}

fn folder(name: &str, part: &str) -> PathBuf {
    documents::file("crates").join(name).join(part)
}

// The public functions of a file of Rattle, methods with their type.
fn public_functions(source: &str) -> Vec<String> {
    let (mut found, mut of) = (Vec::new(), String::new());
    for line in source.lines() {
        if let Some(rest) = line.strip_prefix("impl ") {
            let name = rest.split([' ', '<', '{']).next().unwrap_or_default();
            of = format!("{name}::");
        } else if line == "}" {
            of.clear();
        }
        let item = line.trim_start().strip_prefix("pub ").unwrap_or_default();
        let item = item.strip_prefix("extern \"C\" ").unwrap_or(item);
        if let Some(rest) = item.strip_prefix("fn ") {
            let name: String = rest.chars().take_while(|c| is_word(*c)).collect();
            found.push(format!("{of}{name}"));
        }
    }
    found
}

// The public functions of a crate, with the path of their module.
fn surface(name: &str) -> Vec<String> {
    let (top, mut found) = (folder(name, "src"), Vec::new());
    for file in files(&top, "rt") {
        let module = file.strip_prefix(&top).unwrap().with_extension("");
        let path = match module.to_str().unwrap() {
            "lib" | "main" => String::new(),
            module => format!("{}::", module.replace('/', "::")),
        };
        let here = public_functions(&text(&file));
        found.extend(here.iter().map(|function| format!("{path}{function}")));
    }
    found
}

fn is_word(c: char) -> bool {
    c.is_alphanumeric() || c == '_'
}

// The names that a file of antt declares: theorems, definitions, types, constructors and fields.
fn declared(source: &str, names: &mut Names) {
    const BEFORE: [&str; 6] = ["pub", "abbrev", "unfoldable", "mutual", "data", "record"];
    for line in source.lines() {
        let marked = BEFORE.iter().any(|word| line.starts_with(word));
        let mut words = line.split_whitespace();
        let name = words.find(|word| !BEFORE.contains(word));
        if marked || words.any(|word| word == ":") {
            names.extend(name.map(str::to_owned));
        }
    }
}

fn theorems_and_definitions() -> Names {
    let mut names = Names::new();
    for name in crates() {
        for part in ["specs", "proofs"] {
            for file in files(&folder(&name, part), "antt") {
                declared(&text(&file), &mut names);
            }
        }
    }
    names
}

// Every word of the crates' code.
fn words_of_code() -> Names {
    let mut words = Names::new();
    for file in crates()
        .iter()
        .flat_map(|name| files(&folder(name, "src"), "rt"))
    {
        let source = text(&file);
        words.extend(source.split(|c| !is_word(c)).map(str::to_owned));
    }
    words
}

fn promises() -> String {
    text(&documents::file("docs/PROMISES.md"))
}

// What stands in code marks.
fn marked(line: &str) -> Vec<&str> {
    line.split('`').skip(1).step_by(2).collect()
}

fn is_name(word: &str) -> bool {
    word.chars().all(|c| is_word(c) || c == '-')
}

// The cells of a line of a table.
fn row(line: &str) -> Option<Vec<&str>> {
    let inside = line.strip_prefix('|')?.strip_suffix('|')?;
    Some(inside.split('|').map(str::trim).collect())
}

// The sections of the part on code: the crates that the heading names, and the lines.
fn sections() -> Vec<(Vec<String>, Vec<String>)> {
    let all = promises();
    let (_, code) = all.split_once("\n## Code\n").expect("a part on code");
    let code = code.split("\n## ").next().unwrap();
    let mut found = Vec::new();
    for section in code.split("\n### ").skip(1) {
        let mut lines = section.lines().map(str::to_owned);
        let heading = lines.next().unwrap();
        let named = heading.split(", ").map(str::to_owned);
        let known = crates();
        let named: Vec<_> = named.filter(|name| known.contains(name)).collect();
        assert!(!named.is_empty(), "'### {heading}' names no crate");
        found.push((named, lines.collect()));
    }
    found
}

// What stands in only one of two lists; an entry that is repeated counts each time.
fn apart<T: PartialEq + Clone>(told: &[T], real: &[T]) -> (Vec<T>, Vec<T>) {
    let (mut more, mut rest) = (Vec::new(), real.to_vec());
    for entry in told {
        match rest.iter().position(|other| other == entry) {
            Some(at) => drop(rest.remove(at)),
            None => more.push(entry.clone()),
        }
    }
    (more, rest)
}

#[test]
fn each_crate_has_one_section() {
    let named: Vec<String> = sections()
        .into_iter()
        .flat_map(|section| section.0)
        .collect();
    let differ = apart(&named, &crates());
    assert_eq!(differ, (vec![], vec![]), "headings, crates of crates.txt");
}

#[test]
fn each_public_function_has_one_row_and_no_other_has() {
    for (names, lines) in sections() {
        let first = |line: &String| row(line).map(|cells| cells[0].to_owned());
        let first: Vec<String> = lines.iter().filter_map(first).collect();
        let told = first.iter().flat_map(|cell| marked(cell));
        let told: Vec<String> = told.map(str::to_owned).collect();
        let public: Vec<String> = names.iter().flat_map(|name| surface(name)).collect();
        let differ = apart(&told, &public);
        let what = "rows of no public function, public functions with no row";
        assert_eq!(differ, (vec![], vec![]), "{names:?}: {what}");
    }
}

#[test]
fn each_wrong_program_is_marked_once_in_the_section_of_its_crate() {
    for (names, lines) in sections() {
        let wrongs = names.iter().flat_map(|name| edits::of(name));
        let wrongs: usize = wrongs.map(|edit| edit.wrongs.len()).sum();
        let marks: usize = lines.iter().map(|line| line.matches('*').count()).sum();
        assert_eq!(marks, wrongs, "marks * and wrong programs of {names:?}");
    }
}

// Where a path of the document may begin.
const BEGINNINGS: [&str; 3] = ["", "crates", "crates/laws/proofs"];

fn exists(path: &str) -> bool {
    let below = |top: &&str| documents::file(top).join(path).exists();
    let wrong = |(name, wrong): (&str, &str)| {
        let mut wrongs = edits::of(name).into_iter().flat_map(|edit| edit.wrongs);
        wrongs.any(|other| other.name == wrong)
    };
    BEGINNINGS.iter().any(below) || path.split_once('/').is_some_and(wrong)
}

fn is_file_of_antt(name: &str) -> bool {
    let all = files(&documents::file("crates"), "antt");
    all.iter().any(|file| file.ends_with(name))
}

#[test]
fn each_name_is_of_something_that_exists() {
    let (known, code) = (theorems_and_definitions(), words_of_code());
    let mut unknown = Vec::new();
    for (number, line) in promises().lines().enumerate() {
        for name in marked(line) {
            let good = if name.contains('/') {
                exists(name)
            } else if name.ends_with(".antt") {
                is_file_of_antt(name)
            } else if is_name(name) {
                known.contains(name) || code.contains(name) || exists(name)
            } else {
                true
            };
            if !good {
                unknown.push(format!("line {}: {name}", number + 1));
            }
        }
    }
    assert!(unknown.is_empty(), "docs/PROMISES.md names {unknown:#?}");
}

// The tables that have a column with this heading: which it is, and the rows below.
fn tables(heading: &str) -> Vec<(usize, Vec<Vec<String>>)> {
    let all = promises();
    let mut found = Vec::new();
    let mut lines = all.lines();
    while let Some(line) = lines.next() {
        let heads = row(line).unwrap_or_default();
        if let Some(column) = heads.iter().position(|head| *head == heading) {
            let body = lines.by_ref().skip(1).map_while(row);
            let own = |cells: Vec<&str>| cells.into_iter().map(str::to_owned).collect();
            found.push((column, body.map(own).collect()));
        }
    }
    assert!(!found.is_empty(), "no table has a column '{heading}'");
    found
}

#[test]
fn each_theorem_is_declared() {
    let known = theorems_and_definitions();
    for (column, rows) in tables("theorem") {
        for row in rows {
            let told = marked(&row[column]);
            let names: Vec<_> = told.iter().filter(|name| is_name(name)).collect();
            assert!(!told.is_empty(), "no theorem for: {}", row[0]);
            for name in names {
                assert!(known.contains(*name), "{}: no theorem {name}", row[0]);
            }
        }
    }
}

// The laws of each wrong definition, as its patch has them.
fn refusing() -> BTreeMap<String, Vec<String>> {
    let patches = files(&documents::file("wrong-definitions"), "patch");
    let laws = |file: &PathBuf| {
        let source = text(file);
        let line = source
            .lines()
            .find_map(|line| line.strip_prefix("Refused: "));
        let mut laws: Vec<String> = line
            .unwrap_or_default()
            .split(' ')
            .map(str::to_owned)
            .collect();
        laws.sort();
        (file.file_name().unwrap().to_str().unwrap().to_owned(), laws)
    };
    patches.iter().map(laws).collect()
}

#[test]
fn each_wrong_definition_has_a_row_with_the_laws_that_refuse_it() {
    let mut rows: Vec<Vec<String>> = Vec::new();
    for (column, body) in tables("refused by") {
        for row in body {
            let names = marked(&row[column])
                .into_iter()
                .filter(|name| is_name(name));
            let mut names: Vec<String> = names.map(str::to_owned).collect();
            names.sort();
            rows.push(names);
        }
    }
    let laws: Vec<_> = refusing().into_values().collect();
    let differ = apart(&rows, &laws);
    let what = "rows of no patch, lines `Refused:` with no row";
    assert_eq!(differ, (vec![], vec![]), "{what}");
}

#[test]
fn each_law_that_refuses_is_declared_in_one_file_of_laws() {
    let proofs = files(&folder("laws", "proofs"), "antt");
    let texts: Vec<String> = proofs.iter().map(|file| text(file)).collect();
    for (patch, laws) in refusing() {
        for law in laws {
            let head = |line: &str| {
                let line = line.trim_start();
                line.strip_prefix("pub ")
                    .unwrap_or(line)
                    .starts_with(&format!("{law} :"))
            };
            let count = texts.iter().filter(|text| text.lines().any(head)).count();
            assert_eq!(count, 1, "{patch}: files of laws that declare {law}");
        }
    }
}

// The names that a file of specs makes public: definitions, types and records, not their parts.
fn defined(source: &str) -> Names {
    const BEFORE: [&str; 5] = ["abbrev", "unfoldable", "pub", "data", "record"];
    let mut names = Names::new();
    for line in source.lines() {
        let part = line.starts_with(' ') && !line.starts_with("  pub data");
        let mut words = line.split_whitespace().peekable();
        if part || !words.clone().any(|word| word == "pub") {
            continue;
        }
        while words.next_if(|word| BEFORE.contains(word)).is_some() {}
        let name = words.next().filter(|name| !["mod", "use"].contains(name));
        names.extend(name.map(str::to_owned));
    }
    names
}

#[test]
fn no_name_is_defined_in_two_files_of_specs() {
    let mut places = BTreeMap::<String, Vec<PathBuf>>::new();
    for name in crates() {
        for file in files(&folder(&name, "specs"), "antt") {
            for defined in defined(&text(&file)) {
                places.entry(defined).or_default().push(file.clone());
            }
        }
    }
    assert!(places.len() > 500, "{} names", places.len());
    places.retain(|_, files| files.len() > 1);
    assert!(places.is_empty(), "{places:#?}");
}

#[test]
fn public_functions_are_found_in_code() {
    let source = "pub(crate) fn a() {\n}\nimpl Cursor {\n    pub fn line(self) -> u32 {\n    }\n    fn b() {}\n}\n\
        pub fn part(\n    x: u32,\n) {\n}\n#[no_mangle]\npub extern \"C\" fn answer() {}\nfn c() {}\n";
    assert_eq!(public_functions(source), ["Cursor::line", "part", "answer"]);
}
