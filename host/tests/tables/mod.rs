// Rows of PageTable as they stand in crates/rules/specs: expressions of texts and of lists of texts.
use std::{iter::Peekable, vec::IntoIter};

/// A sheet with what is lent, and the lines of its pages or the name of its refusal.
pub struct Row {
    pub sheet: String,
    pub words: u64,
    pub room: usize,
    pub reply: Result<Vec<String>, String>,
}

/// The words that `paper` lends.
const ENOUGH: u64 = 2_000_000;

#[derive(Clone)]
enum Value {
    /// An empty text or an empty list.
    Nil,
    Text(String),
    List(Vec<String>),
}

impl Value {
    fn text(self) -> String {
        match self {
            Value::Nil => String::new(),
            Value::Text(text) => text,
            Value::List(_) => panic!("a list where a text should stand"),
        }
    }

    fn list(self) -> Vec<String> {
        match self {
            Value::Nil => Vec::new(),
            Value::List(list) => list,
            Value::Text(text) => panic!("the text '{text}' where a list should stand"),
        }
    }
}

// Words, marks, and strings with their first quotation mark.
fn tokens(text: &str) -> Vec<String> {
    let mut found = Vec::new();
    let mut rest = text.trim_start();
    while let Some(first) = rest.chars().next() {
        let end = match first {
            '"' => 1 + rest[1..].find('"').expect("the end of a string"),
            '(' | ')' | '{' | '}' | ';' | '=' | '∷' => first.len_utf8(),
            _ => rest.find([' ', '\n', '(', ')', ';']).unwrap_or(rest.len()),
        };
        found.push(rest[..end].to_owned());
        let after = if first == '"' { end + 1 } else { end };
        rest = rest[after..].trim_start();
    }
    found
}

struct Reader(Peekable<IntoIter<String>>);

impl Reader {
    fn next(&mut self) -> String {
        self.0.next().expect("more of the table")
    }

    fn take(&mut self, words: &str) {
        for word in words.split(' ') {
            assert_eq!(self.next(), word);
        }
    }

    fn number(&mut self) -> usize {
        self.next().parse().expect("a number")
    }

    fn letters(&mut self, letter: &str) -> Value {
        Value::Text(letter.repeat(self.number()))
    }

    // What stands alone or in brackets, or a function with what it takes.
    fn operand(&mut self) -> Value {
        let word = self.next();
        match word.as_str() {
            "[]" => Value::Nil,
            "bytes" => self.operand(),
            "letters" => self.letters("a"),
            "blanks" => self.letters(" "),
            "reduces" => {
                let name = self.letters("a").text();
                Value::Text(format!("kind=reduce\nterm={name}\n"))
            }
            "text" => {
                let lines = self.operand().list().into_iter();
                Value::Text(lines.map(|line| line + "\n").collect())
            }
            "replicate" => {
                let count = self.number();
                Value::List(vec![self.operand().text(); count])
            }
            "(" => {
                let value = self.value();
                self.take(")");
                value
            }
            string => {
                let text = string.strip_prefix('"').expect("a string");
                Value::Text(text.replace("\\n", "\n"))
            }
        }
    }

    fn value(&mut self) -> Value {
        let first = self.operand();
        let joined = self.0.next_if(|word| word == "∷" || word == "++");
        match joined.as_deref() {
            None => first,
            Some("∷") => {
                let rest = self.value().list();
                Value::List([vec![first.text()], rest].concat())
            }
            Some(_) => match first {
                Value::List(list) => Value::List([list, self.value().list()].concat()),
                text => Value::Text(text.text() + &self.value().text()),
            },
        }
    }

    fn row(&mut self, word: &str) -> Row {
        if word == "paper" {
            let sheet = self.operand().text();
            let room = self.number();
            let reply = Ok(self.operand().list());
            return Row {
                sheet,
                words: ENOUGH,
                room,
                reply,
            };
        }
        assert_eq!(word, "record");
        self.take("{ sheet =");
        let sheet = self.value().text();
        self.take("; words =");
        let words = self.number() as u64;
        self.take("; room =");
        let room = self.number();
        self.take("; reply = refused ( number_for");
        let reply = Err(self.next());
        self.take(") }");
        Row {
            sheet,
            words,
            room,
            reply,
        }
    }
}

/// The rows of the table in a file's text.
pub fn rows(text: &str) -> Vec<Row> {
    let (_, table) = text.split_once("\npage_table =\n").expect("the table");
    let lines = table.lines();
    let code: Vec<&str> = lines
        .filter(|line| !line.trim_start().starts_with("--"))
        .collect();
    let mut reader = Reader(tokens(&code.join("\n")).into_iter().peekable());
    let mut rows = Vec::new();
    loop {
        match reader.next().as_str() {
            "[]" => return rows,
            word => rows.push(reader.row(word)),
        }
        reader.take("∷");
    }
}
