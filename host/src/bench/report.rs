// A document whose tables the bench writes: each stands between two marks.
use std::{env, fs, process::Command, thread};

fn line_of(file: &str, key: &str) -> Option<String> {
    let text = fs::read_to_string(file).ok()?;
    let line = text.lines().find(|line| line.starts_with(key))?;
    Some(line.split_once(':')?.1.trim().to_owned())
}

fn said(program: &str, word: &str) -> Option<String> {
    let output = Command::new(program).arg(word).output().ok()?;
    let text = String::from_utf8(output.stdout).ok()?;
    Some(text.lines().next()?.to_owned())
}

// The identity of the Rattle kit whose `rt` is in the path.
fn kit() -> Option<String> {
    let path = env::var_os("PATH")?;
    let found = env::split_paths(&path).find_map(|folder| folder.join("rt").canonicalize().ok())?;
    let text = fs::read_to_string(found.parent()?.parent()?.join("KIT-ID")).ok()?;
    Some(text.trim().to_owned())
}

/// The machine that this runs on and the compilers, in one line.
pub fn machine() -> String {
    let unknown = || "unknown".to_owned();
    let model = line_of("/proc/cpuinfo", "model name").unwrap_or_else(unknown);
    let cores = thread::available_parallelism().map_or(0, usize::from);
    let kilobytes = line_of("/proc/meminfo", "MemTotal")
        .and_then(|text| text.split(' ').next()?.parse::<u64>().ok())
        .unwrap_or(0);
    let rust = said("rustc", "--version").unwrap_or_else(unknown);
    let gibibytes = (kilobytes + (1 << 19)) >> 20;
    let kit = kit().unwrap_or_else(unknown);
    format!("{model}, {cores} cores, {gibibytes} GiB of memory; {rust}; {kit}.\n")
}

// The text with what stands between the marks of a name replaced.
fn replaced(text: &str, name: &str, new: &str) -> Result<String, String> {
    let (start, end) = (format!("<!-- {name} -->\n"), format!("<!-- end {name} -->"));
    let missing = |mark: &str| format!("no mark '{}'", mark.trim_end());
    let (before, rest) = text.split_once(&start).ok_or_else(|| missing(&start))?;
    let (_, after) = rest.split_once(&end).ok_or_else(|| missing(&end))?;
    Ok(format!("{before}{start}{new}{end}{after}"))
}

/// The text with each of these parts, by their names, put between its marks.
pub fn written(text: &str, parts: &[(&str, &str)]) -> Result<String, String> {
    let mut text = text.to_owned();
    for (name, part) in parts {
        text = replaced(&text, name, part)?;
    }
    Ok(text)
}
