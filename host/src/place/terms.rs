// The term lines of a sheet, walked in order up to the first that is no term. A walk keeps its
// open lists in a vector, so that deep terms need no stack.
use super::{Place, lines, shown};

const MOST_NODES: usize = 4_096;
const SUM: &[u8] = b"tamtplus";

/// Where the reading of a text stops and why; no offset where the whole text is at fault.
type Stop = (Option<usize>, String);

// A list that is open.
struct List<'a> {
    name: &'a [u8],
    at: usize,
    children: usize,
    /// Whether each child is a run of digits.
    digits: bool,
}

struct Walk<'a> {
    text: &'a [u8],
    at: usize,
    open: Vec<List<'a>>,
    nodes: usize,
    /// As `equal` reads: of any size, with atoms and sums like any application.
    loose: bool,
}

fn run(bytes: &[u8], test: fn(&u8) -> bool) -> usize {
    bytes.iter().take_while(|byte| test(byte)).count()
}

// The length of a variable at the front: a sigil, digits, a colon, a letter, letters and digits.
fn variable(bytes: &[u8]) -> Option<usize> {
    let (b'x' | b'#' | b'%') = bytes.first()? else {
        return None;
    };
    let digits = run(&bytes[1..], u8::is_ascii_digit);
    let after = bytes[1 + digits..].strip_prefix(b":")?;
    let named = digits > 0 && after.first().is_some_and(u8::is_ascii_alphabetic);
    named.then(|| digits + 2 + run(after, u8::is_ascii_alphanumeric))
}

// The length of a name or a run of digits at the front, 0 where there is none.
fn name(bytes: &[u8]) -> usize {
    match bytes.first() {
        Some(b'0'..=b'9') => run(bytes, u8::is_ascii_digit),
        _ => variable(bytes).unwrap_or_else(|| run(bytes, u8::is_ascii_alphanumeric)),
    }
}

impl<'a> Walk<'a> {
    // What stands next, blanks passed over.
    fn next(&mut self) -> Option<u8> {
        self.at += run(&self.text[self.at..], |byte| *byte == b' ');
        self.text.get(self.at).copied()
    }

    fn stop<T>(&self, expected: &str) -> Result<T, Stop> {
        let found = match &self.text[self.at..] {
            [] => "the end of the line".to_owned(),
            rest => shown(&rest[..name(rest).max(1)]),
        };
        Err((Some(self.at), format!("expected {expected}, found {found}")))
    }

    // A name; with its open list, or as a leaf. Whether it is a leaf.
    fn head(&mut self) -> Result<bool, Stop> {
        self.next();
        let (at, length) = (self.at, name(&self.text[self.at..]));
        if length == 0 {
            return self.stop("a term");
        }
        let name = &self.text[at..at + length];
        self.at += length;
        self.nodes += 1;
        let leaf = self.next() != Some(b'(');
        if let Some(list) = self.open.last_mut() {
            list.children += 1;
            list.digits &= leaf && name.iter().all(u8::is_ascii_digit);
        }
        if !leaf {
            self.at += 1;
            let (children, digits) = (0, true);
            self.open.push(List {
                name,
                at,
                children,
                digits,
            });
        }
        Ok(leaf)
    }

    // A list that is closed; atoms and sums are counted as what they become.
    fn close(&mut self, list: &List) -> Result<(), Stop> {
        match list.name {
            _ if self.loose => {}
            b"p" | b"f" | b"c" | b"t" | b"n" => {
                if list.children != 1 || !list.digits {
                    let reason = format!("{} takes one run of digits", shown(list.name));
                    return Err((Some(list.at), reason));
                }
                self.nodes -= 1;
            }
            SUM if list.children < 2 => {
                return Err((Some(list.at), "a sum of one".to_owned()));
            }
            SUM => self.nodes += list.children - 2,
            _ => {}
        }
        Ok(())
    }

    // Closes lists after a term. Whether another term comes.
    fn after(&mut self) -> Result<bool, Stop> {
        while let Some(list) = self.open.pop() {
            match self.next() {
                Some(b',') => {
                    self.at += 1;
                    self.open.push(list);
                    return Ok(true);
                }
                Some(b')') => {
                    self.at += 1;
                    self.close(&list)?;
                }
                _ => return self.stop("`,` or `)`"),
            }
        }
        Ok(false)
    }

    fn whole(&mut self) -> Result<(), Stop> {
        loop {
            while !self.head()? {}
            if !self.after()? {
                break;
            }
        }
        if self.next().is_some() {
            return self.stop("the end of the line");
        }
        if !self.loose && self.nodes > MOST_NODES {
            let nodes = self.nodes;
            let reason = format!("the term has {nodes} nodes, where {MOST_NODES} are the most");
            return Err((None, reason));
        }
        Ok(())
    }
}

/// Where and why a text is no term.
pub fn stop(text: &[u8], loose: bool) -> Option<Stop> {
    let (at, nodes, open) = (0, 0, Vec::new());
    let mut walk = Walk {
        text,
        at,
        open,
        nodes,
        loose,
    };
    walk.whole().err()
}

/// The first line of a sheet that has to be a term and is none.
pub fn unreadable(bytes: &[u8]) -> Option<Place> {
    let walked = lines::walk(bytes).ok()?;
    let loose = walked.kind.loose;
    walked.terms.iter().find_map(|line| {
        let (offset, reason) = stop(line.text, loose)?;
        Some(Place {
            line: line.number,
            column: offset.map(|offset| line.column + offset),
            reason,
        })
    })
}
