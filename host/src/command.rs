// The subcommands of the program.
use std::{collections::BTreeSet, fs, path::PathBuf, process::ExitCode};

use crate::{
    bench, deep, deepest, definitions, documents,
    edits::{self, Edit},
    generate::{self, Size},
    hostile,
    kinds::{self, KINDS, Kind},
    linked::Comparison,
    notice,
    rng::Rng,
    sheet, store,
    tally::Tally,
};

const HELP: &str = "\
host: the reference of the call, generated sheets and the stored list

  host store                            write the stored list anew
  host replay                           check the stored list against the reference
  host compare [--count N] [--seed S]   the model against the Rust on generated sheets
  host library [--count N] [--seed S] [--kinds equal,unify,..]
                                        the linked library against the reference, on the stored
                                        list and by both calls on generated sheets of these kinds
  host list [--count N] [--seed S] --out FILE
                                        write both calls on generated sheets with the reference's
                                        replies as a list
  host seeds FOLDER                     write the stored sheets as inputs of host/fuzz
  host deepest FILE                     write the deepest sheets of each kind, with the linked
                                        library's replies, as a list
  host bench [--kinds equal,.. | --pages] [--long] [--write FILE]
                                        times of the linked library and of the Rust on sheets
                                        of these kinds, and how they grow, or of pages alone;
                                        --long asks the Rust what takes it over 10 seconds,
                                        --write puts the tables into FILE, between its marks
  host refused CRATE..                  write what the prover's logs say of the must-fail edits of
                                        these crates (host/try-edits calls it)
  host definitions [--count N] [--seed S] [--chunk K] --out FILE
                                        write rows for the definitions, K rows to a theorem
  host --help                           this text
";

type Outcome = Result<ExitCode, String>;

struct Options {
    count: usize,
    seed: u64,
    chunk: usize,
    kinds: Vec<&'static Kind>,
    long: bool,
    out: Option<String>,
}

fn number<T: std::str::FromStr>(name: &str, value: &str) -> Result<T, String> {
    value
        .parse()
        .map_err(|_| format!("{name} takes a number, not '{value}'"))
}

fn kinds(value: &str) -> Result<Vec<&'static Kind>, String> {
    let known = |name: &str| kinds::named(name.as_bytes());
    let found = |name| known(name).ok_or_else(|| format!("--kinds takes no '{name}'"));
    value.split(',').map(found).collect()
}

fn options(words: &[String], allowed: &[&str], count: usize) -> Result<Options, String> {
    let mut found = Options {
        count,
        seed: 1,
        chunk: 25,
        kinds: kinds::all(),
        long: false,
        out: None,
    };
    let mut words = words.iter();
    while let Some(name) = words.next() {
        if !allowed.contains(&name.as_str()) {
            return Err(format!("unknown option '{name}'; see host --help"));
        }
        match name.as_str() {
            "--long" => {
                found.long = true;
                continue;
            }
            "--pages" => {
                found.kinds.clear();
                continue;
            }
            _ => {}
        }
        let value = words
            .next()
            .ok_or_else(|| format!("{name} needs a value"))?;
        match name.as_str() {
            "--count" => found.count = number(name, value)?,
            "--seed" => found.seed = number(name, value)?,
            "--chunk" => found.chunk = number::<usize>(name, value)?.max(1),
            "--kinds" => found.kinds = kinds(value)?,
            _ => found.out = Some(value.clone()),
        }
    }
    Ok(found)
}

fn store() -> Outcome {
    if !oracle::present() {
        return Err(format!(
            "{}; the stored list is left as it is",
            oracle::notice()
        ));
    }
    let records = store::made();
    let path = store::path();
    for path in [&path, &store::replay_path()] {
        fs::write(path, store::written(&records)).map_err(|error| error.to_string())?;
    }
    println!("{} sheets in {}", records.len(), path.display());
    Ok(ExitCode::SUCCESS)
}

fn replay() -> Outcome {
    let records = store::stored()?;
    let wrong = store::wrong(&records);
    for record in &wrong {
        eprintln!("{}: not the reference's reply", record.label);
    }
    let mut tally = Tally::default();
    for record in &records {
        tally.add(record.case.call, &record.case.sheet, &record.case.reply);
    }
    print!("{tally}");
    let agreed = records.len() - wrong.len();
    println!("{agreed} of {} sheets agreed", records.len());
    if !oracle::present() {
        let asked = |record: &&store::Record| sheet::read(&record.case.sheet).is_ok();
        let count = records.iter().filter(asked).count();
        notice::absent(&format!(
            "{count} sheets were compared with the model alone"
        ));
    }
    Ok(if wrong.is_empty() {
        ExitCode::SUCCESS
    } else {
        ExitCode::FAILURE
    })
}

fn compare(words: &[String]) -> Outcome {
    let options = options(words, &["--count", "--seed"], 10_000)?;
    if !oracle::present() {
        return Err(format!("{}; nothing was compared", oracle::notice()));
    }
    let tally = deep::run(|| {
        let mut rng = Rng::new(options.seed);
        let mut tally = Tally::default();
        for _ in 0..options.count {
            for case in generate::cases(&mut rng, Size::Any) {
                tally.add(case.call, &case.sheet, &case.reply);
            }
        }
        tally
    });
    print!("{tally}");
    println!(
        "{} sheets: the model and the Rust agree on each that is answered",
        options.count
    );
    for name in tally.missing() {
        println!("did not come up: {name}");
    }
    Ok(ExitCode::SUCCESS)
}

fn compare_library(words: &[String]) -> Outcome {
    let options = options(words, &["--count", "--seed", "--kinds"], 10_000)?;
    if !yukhtsami::present() {
        return Err(format!("{}; nothing was compared", yukhtsami::notice()));
    }
    notice::absent("the library is compared with the model alone");
    let records = store::stored()?;
    let compared = deep::run(|| {
        let mut comparison = Comparison::default();
        comparison.add_stored(&records);
        comparison.add_generated(options.count, options.seed, &options.kinds);
        comparison
    });
    print!("{}", compared.tally);
    let Comparison {
        calls, differences, ..
    } = compared;
    println!("{calls} calls: {differences} not as the reference says");
    let Some(smallest) = compared.smallest else {
        return Ok(ExitCode::SUCCESS);
    };
    print!("the smallest sheet of them:\n{smallest}");
    Ok(ExitCode::FAILURE)
}

fn write_list(words: &[String]) -> Outcome {
    let options = options(words, &["--count", "--seed", "--out"], 2_000)?;
    let out = options.out.ok_or("list needs --out FILE")?;
    notice::absent("the replies are the model's");
    let records = store::of_any_size(options.count, options.seed);
    fs::write(&out, store::written(&records)).map_err(|error| format!("{out}: {error}"))?;
    println!("{} calls in {out}", records.len());
    Ok(ExitCode::SUCCESS)
}

// The longest sheet that is a seed: longer ones take each call long.
const LONGEST_SEED: usize = 8_000;

fn seeds(words: &[String]) -> Outcome {
    let [folder] = words else {
        return Err("seeds takes one folder; see host --help".to_owned());
    };
    let records = store::stored()?;
    let short = |record: &&store::Record| record.case.sheet.len() <= LONGEST_SEED;
    let mut count = 0;
    for record in records.iter().filter(short) {
        let file = PathBuf::from(folder).join(&record.label);
        fs::write(&file, hostile::seed(record))
            .map_err(|error| format!("{}: {error}", file.display()))?;
        count += 1;
    }
    println!("{count} inputs of {} sheets", records.len());
    Ok(ExitCode::SUCCESS)
}

fn write_deepest(words: &[String]) -> Outcome {
    let [file] = words else {
        return Err("deepest takes one file; see host --help".to_owned());
    };
    if !yukhtsami::present() {
        return Err(format!("{}; nothing was written", yukhtsami::notice()));
    }
    let records = deepest::records();
    fs::write(file, store::written(&records)).map_err(|error| format!("{file}: {error}"))?;
    println!("{} sheets in {file}", records.len());
    Ok(ExitCode::SUCCESS)
}

// The tables, and the document with them if one is named.
fn benched(words: &[String]) -> Outcome {
    let options = options(words, &["--kinds", "--pages", "--long", "--write"], 0)?;
    if !yukhtsami::present() {
        return Err(format!("{}; nothing was timed", yukhtsami::notice()));
    }
    let whole = options.kinds.is_empty() || options.kinds.len() == KINDS.len();
    if options.out.is_some() && !(oracle::present() && whole) {
        return Err("--write takes the tables of all kinds or of pages, with the Rust".to_owned());
    }
    notice::absent("the library is timed alone");
    let wrong = bench::run(&options.kinds, options.long, options.out.as_deref())?;
    for name in &wrong {
        eprintln!("{name}: not the Rust's answer");
    }
    Ok(if wrong.is_empty() {
        ExitCode::SUCCESS
    } else {
        ExitCode::FAILURE
    })
}

// What is refused of the edits of these crates, by the logs of `host/try-edits`.
fn write_refused(names: &[String]) -> Outcome {
    let logs = documents::file("target/must-fail");
    let log_of = |edit: &Edit| {
        let file = logs
            .join(&edit.crate_name)
            .join(format!("{}.log", edit.label));
        fs::read_to_string(file).unwrap_or_default()
    };
    let mut others = Vec::new();
    for name in names {
        match edits::refused(name, log_of) {
            Ok(text) => {
                fs::write(edits::refused_file(name), text).map_err(|error| error.to_string())?;
            }
            Err(found) => others.extend(found),
        }
    }
    if others.is_empty() {
        return Ok(ExitCode::SUCCESS);
    }
    Err(format!(
        "not refused by a goal of their own: {}",
        others.join(", ")
    ))
}

fn write_definitions(words: &[String]) -> Outcome {
    let allowed = ["--count", "--seed", "--chunk", "--out"];
    let options = options(words, &allowed, 1_200)?;
    let out = options.out.ok_or("definitions needs --out FILE")?;
    notice::absent("the rows are the model's");
    let cases = definitions::cases(options.count, options.seed);
    let text = definitions::module(&cases, options.chunk);
    fs::write(&out, text).map_err(|error| format!("{out}: {error}"))?;
    print!("{}", definitions::tally(&cases));
    let distinct: BTreeSet<_> = cases.iter().map(|case| &case.sheet).collect();
    println!("{} rows, {} distinct sheets", cases.len(), distinct.len());
    Ok(ExitCode::SUCCESS)
}

pub fn run(words: &[String]) -> Outcome {
    let Some((name, rest)) = words.split_first() else {
        return Err(format!("no subcommand given\n\n{HELP}"));
    };
    match (name.as_str(), rest) {
        ("--help" | "-h" | "help", []) => {
            print!("{HELP}");
            Ok(ExitCode::SUCCESS)
        }
        ("store", []) => store(),
        ("replay", []) => replay(),
        ("store" | "replay" | "--help" | "-h" | "help", [word, ..]) => {
            Err(format!("{name} takes no '{word}'"))
        }
        ("compare", rest) => compare(rest),
        ("library", rest) => compare_library(rest),
        ("bench", rest) => benched(rest),
        ("list", rest) => write_list(rest),
        ("seeds", rest) => seeds(rest),
        ("deepest", rest) => write_deepest(rest),
        ("definitions", rest) => write_definitions(rest),
        ("refused", names) => write_refused(names),
        (name, _) => Err(format!("unknown subcommand '{name}'; see host --help")),
    }
}
