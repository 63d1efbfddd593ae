// Pairs for solving: made from a common term, by putting variables for parts of it and by small
// changes, so that solved and failed runs go deep.
use std::{collections::BTreeMap, rc::Rc};

use super::{
    spelling::{grouped, shuffled, sum},
    terms::{Terms, apply, atom, variable},
};
use crate::{
    model::{Pair, Sort, Term, canonical, has_sort},
    rng::Rng,
};

// Puts variables for parts of a term; one variable for parts that are AC-equal.
struct Abstraction {
    first: usize,
    rarity: usize,
    named: BTreeMap<Term, Rc<str>>,
}

impl Abstraction {
    fn new(first: usize, rarity: usize) -> Self {
        Self {
            first,
            rarity,
            named: BTreeMap::new(),
        }
    }

    fn variable(&mut self, rng: &mut Rng, part: &Term) -> Option<Term> {
        let fitting: Vec<Sort> = Sort::ALL
            .into_iter()
            .filter(|sort| has_sort(*sort, part))
            .collect();
        if fitting.is_empty() {
            return None;
        }
        let sort = fitting[rng.below(fitting.len())];
        let name = format!("x{}:{}", self.first + self.named.len(), sort.name());
        let name = self
            .named
            .entry(canonical(part))
            .or_insert_with(|| name.into());
        Some(Term::Variable(name.clone()))
    }

    fn of(&mut self, rng: &mut Rng, term: &Term) -> Term {
        if rng.once_in(self.rarity)
            && let Some(found) = self.variable(rng, term)
        {
            return found;
        }
        match term {
            Term::Apply(name, children) => {
                let children = children.iter().map(|child| self.of(rng, child)).collect();
                Term::Apply(name.clone(), children)
            }
            _ => term.clone(),
        }
    }
}

/// The term with one small change somewhere below its root.
pub fn changed(rng: &mut Rng, term: &Term) -> Term {
    match term {
        Term::Apply(name, children) if !children.is_empty() && !rng.once_in(6) => {
            let at = rng.below(children.len());
            let mut children = children.to_vec();
            children[at] = changed(rng, &children[at]);
            Term::Apply(name.clone(), children.into())
        }
        Term::Apply(name, children) if children.len() > 1 && rng.once_in(2) => {
            let mut children = children.to_vec();
            children.reverse();
            Term::Apply(name.clone(), children.into())
        }
        Term::Apply(_, children) => apply("k", children.to_vec()),
        Term::Atom(letter, _) if rng.once_in(2) => atom(*letter, 5),
        Term::Atom(..) => atom(['p', 'f', 'c', 't', 'n'][rng.below(5)], 1),
        Term::Variable(_) => variable(rng.below(4), Sort::ALL[rng.below(5)]),
    }
}

pub fn tidy(rng: &mut Rng) -> bool {
    !rng.once_in(4)
}

fn common(rng: &mut Rng, variables: usize) -> Term {
    let depth = rng.between(1, 4);
    let tidy = tidy(rng);
    Terms {
        rng,
        variables,
        tidy,
    }
    .any(depth)
}

// Both sides from common terms, with a change now and then.
fn instances(rng: &mut Rng, count: usize, changes: bool) -> Vec<Pair> {
    let apart = rng.once_in(2);
    let mut left = Abstraction::new(0, rng.between(2, 6));
    let mut right = Abstraction::new(if apart { 20 } else { 2 }, rng.between(2, 9));
    let mut pairs = Vec::new();
    for _ in 0..count {
        let term = common(rng, 0);
        let mut first = left.of(rng, &term);
        let moved = shuffled(rng, &term);
        let mut second = right.of(rng, &moved);
        if changes && rng.once_in(2) {
            second = changed(rng, &second);
        }
        if rng.once_in(2) {
            (first, second) = (second, first);
        }
        pairs.push((first, second));
    }
    pairs
}

// Sums with common summands and few others.
fn sums(rng: &mut Rng) -> Vec<Pair> {
    let count = rng.between(0, 3);
    let shared: Vec<Term> = (0..count)
        .map(|_| {
            Terms {
                rng,
                variables: 3,
                tidy: true,
            }
            .natural(0)
        })
        .collect();
    let side = |rng: &mut Rng| {
        let mut summands = shared.clone();
        for _ in 0..rng.between(0, 2) {
            let tidy = tidy(rng);
            let mut terms = Terms {
                rng,
                variables: 3,
                tidy,
            };
            summands.push(if terms.rng.once_in(3) {
                terms.message(1)
            } else {
                terms.natural(0)
            });
        }
        rng.shuffle(&mut summands);
        while summands.len() < 2 {
            summands.push(atom('t', 0));
        }
        grouped(rng, summands)
    };
    vec![(side(rng), side(rng))]
}

// A variable that comes to stand inside its own value, at once or by way of others.
fn circular(rng: &mut Rng) -> Vec<Pair> {
    let length = rng.between(1, 3);
    let mut pairs = Vec::new();
    for index in 0..length {
        let inner = variable((index + 1) % length, Sort::Msg);
        let value = apply(
            "g",
            vec![
                Terms {
                    rng,
                    variables: 0,
                    tidy: true,
                }
                .message(1),
                inner,
            ],
        );
        pairs.push((variable(index, Sort::Msg), value));
    }
    if rng.once_in(3) {
        let naturals = sum(variable(0, Sort::TamNat), atom('t', 1));
        pairs = vec![(variable(0, Sort::TamNat), naturals)];
    }
    pairs
}

fn variable_pair(rng: &mut Rng) -> Vec<Pair> {
    let key = variable(rng.below(3), Sort::ALL[rng.below(5)]);
    let tidy = tidy(rng);
    let mut terms = Terms {
        rng,
        variables: 3,
        tidy,
    };
    let value = match terms.rng.below(3) {
        0 => variable(terms.rng.below(3), Sort::ALL[terms.rng.below(5)]),
        1 => terms.any(2),
        _ => terms.natural(2),
    };
    vec![if rng.once_in(2) {
        (key, value)
    } else {
        (value, key)
    }]
}

/// Pairs to unify.
pub fn to_unify(rng: &mut Rng) -> Vec<Pair> {
    match rng.weighted(&[30, 24, 14, 8, 14, 8, 2]) {
        0 => instances(rng, 1, false),
        1 => {
            let count = rng.between(1, 3);
            instances(rng, count, true)
        }
        2 => {
            let count = rng.between(2, 3);
            instances(rng, count, false)
        }
        3 => sums(rng),
        4 => variable_pair(rng),
        5 => circular(rng),
        _ => vec![],
    }
}

/// Pairs to match: the pattern left, the subject right.
pub fn to_match(rng: &mut Rng) -> Vec<Pair> {
    if rng.once_in(5) {
        return to_unify(rng);
    }
    let mut pattern = Abstraction::new(0, rng.between(2, 5));
    let mut pairs = Vec::new();
    for _ in 0..rng.weighted(&[1, 12, 4, 2]) {
        let subject = common(rng, 3);
        let mut first = pattern.of(rng, &subject);
        if rng.once_in(3) {
            first = changed(rng, &first);
        }
        pairs.push((first, shuffled(rng, &subject)));
    }
    pairs
}
