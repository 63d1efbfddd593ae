// Random terms: of a given sort, with redexes, tidy or not.
use crate::{
    generate::spelling::sum,
    model::{Sort, Term},
    rng::Rng,
};

/// Names with the count of arguments that tidy terms give them.
const FUNCTIONS: [(&str, usize); 14] = [
    ("g", 2),
    ("h", 1),
    ("a", 0),
    ("b", 0),
    ("tamXCpair", 2),
    ("tamXCfst", 1),
    ("tamXCsnd", 1),
    ("tamXCsenc", 2),
    ("tamXCsdec", 2),
    ("tamXCpk", 1),
    ("tamXCflip", 1),
    ("tamXCroleA", 0),
    ("tamXCroleB", 0),
    ("w3", 3),
];

pub fn apply(name: &str, children: Vec<Term>) -> Term {
    Term::Apply(name.into(), children.into())
}

pub fn variable(index: usize, sort: Sort) -> Term {
    Term::Variable(format!("x{index}:{}", sort.name()).into())
}

pub fn atom(letter: char, index: usize) -> Term {
    Term::Atom(letter, index.to_string().into())
}

pub struct Terms<'r> {
    pub rng: &'r mut Rng,
    /// Variables have indices below this; 0 for none.
    pub variables: usize,
    pub tidy: bool,
}

impl Terms<'_> {
    fn leaf_variable(&mut self, sort: Sort) -> Option<Term> {
        if self.variables == 0 || !self.rng.once_in(2) {
            return None;
        }
        Some(variable(self.rng.below(self.variables), sort))
    }

    fn atom(&mut self, letter: char) -> Term {
        atom(letter, self.rng.below(4))
    }

    pub fn natural(&mut self, depth: usize) -> Term {
        if depth > 0 && self.rng.once_in(2) {
            return sum(self.natural(depth - 1), self.natural(depth - 1));
        }
        if let Some(found) = self.leaf_variable(Sort::TamNat) {
            return found;
        }
        if self.rng.once_in(6) {
            apply("tamXCtone", vec![])
        } else {
            self.atom('t')
        }
    }

    fn message_leaf(&mut self) -> Term {
        let sort = [Sort::Msg, Sort::Msg, Sort::Pub, Sort::Fresh, Sort::TamNat][self.rng.below(5)];
        if let Some(found) = self.leaf_variable(sort) {
            return found;
        }
        let letter = ['c', 'c', 'p', 'f', 't'][self.rng.below(5)];
        self.atom(letter)
    }

    pub fn message(&mut self, depth: usize) -> Term {
        if !self.tidy && self.rng.once_in(6) {
            return self.odd(depth);
        }
        if depth == 0 || self.rng.once_in(5) {
            return self.message_leaf();
        }
        if self.rng.once_in(6) {
            return self.natural(2);
        }
        if self.rng.once_in(7) {
            return self.redex(depth - 1);
        }
        let (name, count) = FUNCTIONS[self.rng.below(FUNCTIONS.len())];
        apply(name, (0..count).map(|_| self.message(depth - 1)).collect())
    }

    pub fn of_sort(&mut self, sort: Sort, depth: usize) -> Term {
        match sort {
            Sort::Msg => self.message(depth),
            Sort::TamNat => self.natural(depth),
            Sort::Pub | Sort::Fresh | Sort::Node => {
                let letter = match sort {
                    Sort::Pub => 'p',
                    Sort::Fresh => 'f',
                    _ => 'n',
                };
                self.leaf_variable(sort)
                    .unwrap_or_else(|| self.atom(letter))
            }
        }
    }

    /// A term of any sort.
    pub fn any(&mut self, depth: usize) -> Term {
        match self.rng.weighted(&[12, 2, 1]) {
            0 => self.message(depth),
            1 => self.natural(depth.max(1)),
            _ => self.of_sort(Sort::Node, 0),
        }
    }

    /// A term that a rule may reduce at its root.
    pub fn redex(&mut self, depth: usize) -> Term {
        let payload = self.message(depth);
        let key = if self.rng.once_in(2) {
            self.natural(1)
        } else {
            self.message(depth.min(1))
        };
        let other = if self.rng.once_in(4) {
            self.message(0)
        } else {
            super::spelling::shuffled(self.rng, &key)
        };
        let pair = |payload, second| apply("tamXCpair", vec![payload, second]);
        match self.rng.below(7) {
            0 => apply("tamXCfst", vec![pair(payload, key)]),
            1 => apply("tamXCsnd", vec![pair(payload, key)]),
            2 => apply("tamXCflip", vec![apply("tamXCroleA", vec![])]),
            3 => apply("tamXCflip", vec![apply("tamXCroleB", vec![])]),
            4 => apply(
                "tamXCsdec",
                vec![apply("tamXCsenc", vec![payload, key]), other],
            ),
            5 => {
                let public = apply("tamXCpk", vec![key]);
                apply(
                    "tamXCkdec",
                    vec![apply("tamXCkem", vec![payload, public]), other],
                )
            }
            _ => apply("tamXCfst", vec![pair(payload, self.atom('n'))]),
        }
    }

    // A term that is not tidy.
    fn odd(&mut self, depth: usize) -> Term {
        let down = depth.saturating_sub(1);
        let index = self.rng.below(self.variables.max(1));
        let count = self.rng.between(1, 3);
        match self.rng.below(13) {
            0 => Term::Variable(format!("x{index}:Foo").into()),
            1 => Term::Variable(format!("#{index}:Msg").into()),
            2 => Term::Variable(format!("%{index}:Pub").into()),
            3 => Term::Variable(format!("x0{index}:Msg").into()),
            4 => Term::Atom('t', format!("0{index}").into()),
            5 => apply(&format!("x{index}:Msg"), vec![self.message(down)]),
            6 => apply("tamtplus", vec![]),
            7 => sum(apply("tamtplus", vec![]), self.message(down)),
            8 => apply("tamXCtone", vec![self.any(down)]),
            9 => apply("g", (0..count).map(|_| self.message(down)).collect()),
            10 => apply(
                self.rng.pick(&["list", "cons", "nil"]),
                (1..count).map(|_| self.any(down)).collect(),
            ),
            11 => sum(self.any(down), self.message(down)),
            _ => apply("7", (1..count).map(|_| self.any(down)).collect()),
        }
    }
}
