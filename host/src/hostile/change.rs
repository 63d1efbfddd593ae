// Changes of an input that mostly leave a sheet: of its terms, lines, variables and fuel, and of
// single bytes.
use std::ops::Range;

use super::CHOICE;
use crate::{
    kinds::{Form, KINDS},
    rng::Rng,
};

const LINES: [&str; 10] = [
    "left=x0:Msg\nright=x1:Pub\n",
    "left=tamtplus(x0:TamNat,t(1))\nright=tamtplus(t(2),t(1))\n",
    "member=x0:Msg\n",
    "member=\n",
    "key=x0:Msg\nvalue=x1:Msg\n",
    "key=x1:Msg\nvalue=tamXCpair(x2:Msg,x3:Msg)\n",
    "fuel=9\n",
    "term=tamXCfst(x0:Msg)\n",
    "left=a\n",
    "\n",
];
const TERMS: [&str; 20] = [
    "x0:Msg",
    "x1:Pub",
    "x2:Fresh",
    "x3:TamNat",
    "x4:Node",
    "#5:Foo",
    "p(0)",
    "f(1)",
    "c(2)",
    "t(3)",
    "n(4)",
    "tamtplus(t(1),x3:TamNat,t(1))",
    "tamXCtone",
    "tamXCpair(c(1),x0:Msg)",
    "tamXCsenc(x0:Msg,c(3))",
    "tamXCkem(x0:Msg,tamXCpk(x1:Msg))",
    "tamXCroleA",
    "tamXCroleB",
    "list(cons(a,nil))",
    "x1:Msg(a)",
];
const AROUND: [(&str, &str); 12] = [
    ("h(", ")"),
    ("g(", ",b)"),
    ("tamtplus(t(0),", ")"),
    ("tamtplus(", ",x0:TamNat)"),
    ("tamXCfst(", ")"),
    ("tamXCsnd(", ")"),
    ("tamXCflip(", ")"),
    ("tamXCpair(", ",c(0))"),
    ("tamXCpair(c(0),", ")"),
    ("tamXCsdec(", ",c(3))"),
    ("tamXCkdec(", ",x1:Msg)"),
    (" ", " "),
];
const SORTS: [&str; 7] = ["Msg", "Pub", "Fresh", "TamNat", "Node", "Foo", ""];
const INDICES: [&str; 6] = [
    "0",
    "1",
    "2",
    "3",
    "9223372036854775808",
    "0000000000000000000000000000000000000001",
];
const FUELS: [&str; 8] = ["0", "1", "2", "3", "4", "9", "65536", "65537"];
const BYTES: &[u8] = b" ():,=xt0n#%A_\n\t~";

// The end of the term, or of what stands for one, that starts here.
fn end_of(sheet: &[u8], start: usize) -> usize {
    let mut open = 0;
    for (at, byte) in sheet.iter().enumerate().skip(start) {
        match byte {
            b'\n' => return at,
            b',' if open == 0 => return at,
            b')' if open == 0 => return at,
            b'(' => open += 1,
            b')' if open == 1 => return at + 1,
            b')' => open -= 1,
            _ => {}
        }
    }
    sheet.len()
}

// A term of the sheet: what follows an equals sign, a bracket or a comma, but no kind and no fuel.
fn term(rng: &mut Rng, sheet: &[u8]) -> Option<Range<usize>> {
    let starts = |at: &usize| match sheet[*at] {
        b'(' | b',' => true,
        b'=' => !sheet[..*at].ends_with(b"kind") && !sheet[..*at].ends_with(b"fuel"),
        _ => false,
    };
    let from = rng.below(sheet.len().max(1));
    let ahead = (from..sheet.len()).find(starts);
    let start = ahead.or_else(|| (0..sheet.len()).rfind(starts))? + 1;
    Some(start..end_of(sheet, start))
}

fn terms(rng: &mut Rng, sheet: &mut Vec<u8>) -> Option<()> {
    let here = term(rng, sheet)?;
    let there = term(rng, sheet)?;
    let found = sheet[there].to_vec();
    let taken = match rng.below(4) {
        0 => found,
        1 => rng.pick(&TERMS).as_bytes().to_vec(),
        2 => {
            let (front, back) = AROUND[rng.below(AROUND.len())];
            let inner = sheet[here.clone()].to_vec();
            [front.as_bytes(), &inner, back.as_bytes()].concat()
        }
        _ => {
            let inner = sheet[here.clone()].to_vec();
            let within = term(rng, &inner).unwrap_or(0..inner.len());
            inner[within].to_vec()
        }
    };
    sheet.splice(here, taken);
    Some(())
}

fn split(sheet: &[u8]) -> Vec<Vec<u8>> {
    let lines = sheet.split_inclusive(|byte| *byte == 10);
    lines.map(<[u8]>::to_vec).collect()
}

fn lines(rng: &mut Rng, sheet: &mut Vec<u8>) -> Option<()> {
    let mut lines = split(sheet);
    let (first, second) = (rng.below(lines.len().max(1)), rng.below(lines.len().max(1)));
    match rng.below(4) {
        0 if first < lines.len() => drop(lines.remove(first)),
        1 => lines.insert(second, lines.get(first)?.clone()),
        2 if first < lines.len() => lines.swap(first, second),
        _ => lines.insert(second, rng.pick(&LINES).as_bytes().to_vec()),
    }
    *sheet = lines.concat();
    Some(())
}

// A pair, an entry or a member's first line twice, elsewhere or gone.
fn groups(rng: &mut Rng, sheet: &mut Vec<u8>) -> Option<()> {
    let mut lines = split(sheet);
    let front = rng.pick(&["left=", "key=", "member="]).as_bytes();
    let is_group = |at: &usize| lines[*at].starts_with(front);
    let starts: Vec<usize> = (0..lines.len()).filter(is_group).collect();
    let length = if front == b"member=" { 1 } else { 2 };
    let of = |rng: &mut Rng| starts.get(rng.below(starts.len().max(1))).copied();
    let (from, to) = (of(rng)?, of(rng)?);
    let group = lines.get(from..from + length)?.to_vec();
    match rng.below(3) {
        0 => drop(lines.drain(from..from + length)),
        1 => drop(lines.splice(to..to, group)),
        _ => {
            lines.drain(from..from + length);
            let to = to.min(lines.len());
            lines.splice(to..to, group);
        }
    }
    *sheet = lines.concat();
    Some(())
}

// What follows the first such mark at or after some place, as far as the bytes are of a sort.
fn after(rng: &mut Rng, sheet: &[u8], mark: &[u8], of: fn(&u8) -> bool) -> Option<Range<usize>> {
    let from = rng.below(sheet.len().max(1));
    let places = || sheet.windows(mark.len()).enumerate();
    let is_mark = |(_, part): &(usize, &[u8])| *part == mark;
    let found = places().skip(from).find(is_mark);
    let start = found.or_else(|| places().find(is_mark))?.0 + mark.len();
    let length = sheet[start..].iter().take_while(|byte| of(byte)).count();
    Some(start..start + length)
}

// Whether lines of the one form are mostly lines of the other.
fn alike(one: Form, other: Form) -> bool {
    let with_members = |form| matches!(form, Form::TermMember | Form::TermMembers);
    one == other || with_members(one) && with_members(other)
}

// The next kind with such lines, now and then any.
fn other_kind(rng: &mut Rng, name: &[u8]) -> &'static str {
    if rng.once_in(8) {
        return KINDS[rng.below(KINDS.len())].name;
    }
    let Some(at) = KINDS.iter().position(|kind| kind.name.as_bytes() == name) else {
        return "reduce";
    };
    let others = KINDS.iter().cycle().skip(at + 1);
    let mut alike = others.filter(|kind| alike(kind.form, KINDS[at].form));
    alike.next().expect("a kind is like itself").name
}

fn words(rng: &mut Rng, sheet: &mut Vec<u8>) -> Option<()> {
    let (range, word) = match rng.below(4) {
        0 => (
            after(rng, sheet, b":", u8::is_ascii_alphanumeric)?,
            rng.pick(&SORTS),
        ),
        1 => (
            after(rng, sheet, b"x", u8::is_ascii_digit)?,
            rng.pick(&INDICES),
        ),
        2 => (
            after(rng, sheet, b"fuel=", u8::is_ascii_digit)?,
            rng.pick(&FUELS),
        ),
        _ => {
            let range = after(rng, sheet, b"kind=", u8::is_ascii_alphabetic)?;
            let other = other_kind(rng, &sheet[range.clone()]);
            (range, other)
        }
    };
    sheet.splice(range, word.bytes());
    Some(())
}

fn bytes(rng: &mut Rng, sheet: &mut Vec<u8>) -> Option<()> {
    let at = rng.below(sheet.len() + 1);
    let byte = BYTES[rng.below(BYTES.len())];
    match rng.below(3) {
        0 => sheet.insert(at, byte),
        1 => *sheet.get_mut(at)? = byte,
        _ => sheet.truncate(at),
    }
    Some(())
}

/// The input with one to four changes, cut at the most bytes.
pub fn changed(rng: &mut Rng, input: &[u8], most: usize) -> Vec<u8> {
    let (choice, sheet) = input.split_at(CHOICE.min(input.len()));
    let (mut choice, mut sheet) = (choice.to_vec(), sheet.to_vec());
    choice.resize(CHOICE, 0);
    for _ in 0..rng.between(1, 4) {
        // A change that finds no place leaves the sheet as it is.
        let _ = match rng.weighted(&[24, 6, 8, 1, 1, 1]) {
            0 => terms(rng, &mut sheet),
            1 => groups(rng, &mut sheet),
            2 => words(rng, &mut sheet),
            3 => lines(rng, &mut sheet),
            4 => bytes(rng, &mut sheet),
            _ => {
                choice[0] = rng.number() as u8;
                choice[1] = rng.number() as u8;
                Some(())
            }
        };
    }
    choice.extend(sheet);
    choice.truncate(most);
    choice
}
