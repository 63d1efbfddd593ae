// Writing terms in many ways: blanks, flat sums, and sums in another order and grouping.
use crate::{model::Term, rng::Rng};

pub fn sum(left: Term, right: Term) -> Term {
    Term::Apply("tamtplus".into(), vec![left, right].into())
}

/// The summands grouped at random.
pub fn grouped(rng: &mut Rng, mut summands: Vec<Term>) -> Term {
    while summands.len() > 1 {
        let at = rng.below(summands.len() - 1);
        let right = summands.remove(at + 1);
        let left = summands[at].clone();
        summands[at] = sum(left, right);
    }
    summands.remove(0)
}

/// The term with its sums in another order and grouping.
pub fn shuffled(rng: &mut Rng, term: &Term) -> Term {
    match term {
        Term::Apply(name, children) if &**name == "tamtplus" && children.len() == 2 => {
            let mut summands = term.summands();
            for summand in &mut summands {
                *summand = shuffled(rng, summand);
            }
            if summands.is_empty() {
                return term.clone();
            }
            rng.shuffle(&mut summands);
            grouped(rng, summands)
        }
        Term::Apply(name, children) => Term::Apply(
            name.clone(),
            children.iter().map(|child| shuffled(rng, child)).collect(),
        ),
        _ => term.clone(),
    }
}

struct Writer<'r> {
    rng: &'r mut Rng,
    blanks: bool,
    out: String,
}

impl Writer<'_> {
    fn blank(&mut self) {
        if self.blanks && self.rng.once_in(4) {
            self.out
                .push_str(if self.rng.once_in(3) { "  " } else { " " });
        }
    }

    fn token(&mut self, token: &str) {
        self.blank();
        self.out.push_str(token);
        self.blank();
    }

    // The children, with a sum's last child unfolded now and then.
    fn listed(&mut self, term: &Term) -> Vec<Term> {
        let mut children = term.children().to_vec();
        while term.is("tamtplus")
            && children
                .last()
                .is_some_and(|last| last.is("tamtplus") && last.children().len() == 2)
            && !self.rng.once_in(3)
        {
            let last = children.pop().expect("a last child");
            children.extend(last.children().iter().cloned());
        }
        children
    }

    fn term(&mut self, term: &Term) {
        match term {
            Term::Variable(name) => self.token(name),
            Term::Atom(letter, digits) => {
                self.token(&letter.to_string());
                self.token("(");
                self.token(digits);
                self.token(")");
            }
            Term::Apply(name, _) => {
                self.token(name);
                for (index, child) in self.listed(term).iter().enumerate() {
                    self.token(if index == 0 { "(" } else { "," });
                    self.term(child);
                }
                if !term.children().is_empty() {
                    self.token(")");
                }
            }
        }
    }
}

/// The term's text, now and then with blanks.
pub fn spelled(rng: &mut Rng, term: &Term) -> String {
    let blanks = rng.once_in(12);
    let mut writer = Writer {
        rng,
        blanks,
        out: String::new(),
    };
    writer.term(term);
    writer.out
}
