// Reading terms (01, "Reading"): tokens, terms as the solver reads them, and terms as `equal` does.
use super::{
    LIMIT,
    term::{SUM, Term, apply, nested},
};

fn digits(bytes: &[u8]) -> usize {
    bytes
        .iter()
        .take_while(|byte| byte.is_ascii_digit())
        .count()
}

fn alphanumerics(bytes: &[u8]) -> usize {
    bytes
        .iter()
        .take_while(|byte| byte.is_ascii_alphanumeric())
        .count()
}

// The length of a variable at the front: a sigil, digits, a colon, a letter, letters and digits.
fn variable(bytes: &[u8]) -> Option<usize> {
    if !matches!(bytes.first(), Some(b'x' | b'#' | b'%')) {
        return None;
    }
    let colon = 1 + digits(&bytes[1..]);
    let letter = *bytes.get(colon + 1)?;
    let good = colon > 1 && bytes[colon] == b':' && letter.is_ascii_alphabetic();
    good.then(|| colon + 1 + alphanumerics(&bytes[colon + 1..]))
}

// The length of the token at the front.
fn token(bytes: &[u8]) -> Option<usize> {
    if let Some(length) = variable(bytes) {
        return Some(length);
    }
    match bytes[0] {
        b'(' | b')' | b',' => Some(1),
        b'0'..=b'9' => Some(digits(bytes)),
        first if first.is_ascii_alphabetic() => Some(alphanumerics(bytes)),
        _ => None,
    }
}

fn tokens(text: &str) -> Option<Vec<&str>> {
    let mut found = Vec::new();
    let mut at = 0;
    while at < text.len() {
        if text.as_bytes()[at] == b' ' {
            at += 1;
            continue;
        }
        let end = at + token(&text.as_bytes()[at..])?;
        found.push(&text[at..end]);
        at = end;
    }
    Some(found)
}

struct Reader<'a> {
    tokens: Vec<&'a str>,
    at: usize,
    close: fn(&str, Vec<Term>) -> Option<Term>,
}

impl Reader<'_> {
    fn next(&mut self) -> Option<&str> {
        let token = self.tokens.get(self.at)?;
        self.at += 1;
        Some(token)
    }

    fn term(&mut self) -> Option<Term> {
        let at = self.at;
        if matches!(self.next()?, "(" | ")" | ",") {
            return None;
        }
        if self.tokens.get(self.at) != Some(&"(") {
            return Some(leaf(self.tokens[at]));
        }
        self.at += 1;
        let mut children = Vec::new();
        loop {
            children.push(self.term()?);
            match self.next()? {
                "," => {}
                ")" => break,
                _ => return None,
            }
        }
        (self.close)(self.tokens[at], children)
    }
}

fn leaf(name: &str) -> Term {
    if name.contains(':') {
        Term::Variable(name.into())
    } else {
        apply(name, vec![])
    }
}

fn whole(text: &str, close: fn(&str, Vec<Term>) -> Option<Term>) -> Option<Term> {
    let tokens = tokens(text)?;
    let mut reader = Reader {
        tokens,
        at: 0,
        close,
    };
    let term = reader.term()?;
    (reader.at == reader.tokens.len()).then_some(term)
}

fn close(name: &str, children: Vec<Term>) -> Option<Term> {
    match name {
        "p" | "f" | "c" | "t" | "n" => match children.as_slice() {
            [Term::Apply(run, inner)]
                if inner.is_empty() && digits(run.as_bytes()) == run.len() =>
            {
                Some(Term::Atom(name.chars().next()?, run.clone()))
            }
            _ => None,
        },
        SUM if children.len() < 2 => None,
        SUM => nested(children),
        _ => Some(apply(name, children)),
    }
}

/// The term of a text; none where it is unreadable.
pub fn read(text: &str) -> Option<Term> {
    whole(text, close).filter(|term| term.size() <= LIMIT)
}

/// The term of a text as `equal` reads it: of any size, with atoms and sums like any application.
pub fn read_loosely(text: &str) -> Option<Term> {
    whole(text, |name, children| Some(apply(name, children)))
}
