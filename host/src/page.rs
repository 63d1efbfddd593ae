// An answer laid out in pages (02, R-1), and pages read back.
pub const WIDTH: usize = 72;
/// The columns of the key; the text has the others.
pub const KEY: usize = 9;
const TEXT: usize = WIDTH - KEY;
/// The lines of a page below its first.
pub const BELOW: usize = 49;

// A line of the answer: its key before the first part of its text, blanks before the others.
fn lines_of(line: &str, lines: &mut Vec<String>) {
    let (key, mut text) = line.split_once('=').expect("a line of an answer");
    let mut key = key;
    loop {
        let (part, rest) = text.split_at(text.len().min(TEXT));
        lines.push(format!("{key:<KEY$}{part}"));
        (key, text) = ("", rest);
        if text.is_empty() {
            return;
        }
    }
}

fn lines(answer: &[u8]) -> Vec<String> {
    let answer = str::from_utf8(answer).expect("an answer of plain bytes");
    let mut lines = Vec::new();
    for line in answer.lines() {
        lines_of(line, &mut lines);
    }
    lines
}

/// The pages that an answer needs.
pub fn count(answer: &[u8]) -> usize {
    lines(answer).len().div_ceil(BELOW)
}

/// Lines filled with blanks, and with blank lines up to the end of a page.
pub fn filled<'a>(lines: impl Iterator<Item = &'a str>) -> Vec<u8> {
    let mut out = String::new();
    let mut count = 0;
    for line in lines {
        out.push_str(&format!("{line:<WIDTH$}\n"));
        count += 1_usize;
    }
    let missing = count.next_multiple_of(BELOW + 1) - count;
    out.push_str(&format!("{:<WIDTH$}\n", "").repeat(missing));
    out.into_bytes()
}

/// The answer laid out; none where it needs over 9,999 pages.
pub fn laid_out(answer: &[u8]) -> Option<Vec<u8>> {
    let lines = lines(answer);
    let pages: Vec<&[String]> = lines.chunks(BELOW).collect();
    if pages.len() > yukhtsami::MOST_PAGES {
        return None;
    }
    let mut headed = Vec::with_capacity(lines.len() + pages.len());
    let headings: Vec<String> = (1..=pages.len())
        .map(|number| format!("PAGE {number:04}"))
        .collect();
    for (heading, page) in headings.iter().zip(pages) {
        headed.push(heading.as_str());
        headed.extend(page.iter().map(String::as_str));
    }
    Some(filled(headed.into_iter()))
}

/// The answer that pages hold; none where they are no pages.
pub fn read_back(pages: &[u8]) -> Option<String> {
    let text = str::from_utf8(pages).ok()?;
    let lines: Vec<&str> = text.strip_suffix('\n')?.split('\n').collect();
    let whole = lines.len().is_multiple_of(BELOW + 1);
    if !whole || lines.iter().any(|line| line.len() != WIDTH) {
        return None;
    }
    let mut answer = String::new();
    for (index, page) in lines.chunks(BELOW + 1).enumerate() {
        if page[0].trim_end() != format!("PAGE {:04}", index + 1) {
            return None;
        }
        for line in &page[1..] {
            let (key, text) = line.split_at(KEY);
            if !key.trim_end().is_empty() {
                let end = if answer.is_empty() { "" } else { "\n" };
                answer.push_str(&format!("{end}{}=", key.trim_end()));
            }
            answer.push_str(text.trim_end());
        }
    }
    answer.push('\n');
    Some(answer)
}
