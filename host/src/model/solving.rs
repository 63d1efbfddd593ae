// Solving (01, "Solving"): unify and match, each with the number of pairs taken.
use std::rc::Rc;

use super::{
    LIMIT,
    sorts::{has_sort, never_equal, refinable, sort_of},
    term::{Bindings, Pair, SUM, Term, ac_equal, nested, values},
};

#[derive(Clone, Debug, PartialEq, Eq)]
pub enum Verdict {
    Solved(Bindings),
    Failed,
    Unsupported,
}

/// The verdict, and the number of pairs taken from the stack.
#[derive(Clone, Debug, PartialEq, Eq)]
pub struct Outcome {
    pub verdict: Verdict,
    pub spent: usize,
}

// How a pair ends the run, if it does.
enum End {
    Fails,
    Unknown,
}

enum Rest {
    Nothing,
    OneSide,
    Pair(Term, Term),
    More,
}

fn cancel(left: &Term, right: &Term, both: bool, partner: fn(&Term, &Term) -> bool) -> Rest {
    let mut others = right.summands();
    let mut kept = Vec::new();
    for summand in left.summands() {
        match others.iter().position(|other| partner(&summand, other)) {
            Some(at) => drop(others.remove(at)),
            None => kept.push(summand),
        }
    }
    let paired = kept.len() == 1 || both && others.len() == 1;
    match (nested(kept), nested(others)) {
        (None, None) => Rest::Nothing,
        (None, _) | (_, None) => Rest::OneSide,
        (Some(left), Some(right)) if paired => Rest::Pair(left, right),
        _ => Rest::More,
    }
}

// The children pairwise as far as both go, the first on top.
fn push_children(stack: &mut Vec<Pair>, left: &Term, right: &Term) {
    for (first, second) in left.children().iter().zip(right.children()).rev() {
        stack.push((first.clone(), second.clone()));
    }
}

struct Unifier {
    stack: Vec<Pair>,
    made: Bindings,
}

impl Unifier {
    fn step(&mut self, left: &Term, right: &Term) -> Result<(), End> {
        if left == right {
            return Ok(());
        }
        match (left, right) {
            (Term::Variable(key), value) | (value, Term::Variable(key)) => self.bind(key, value),
            _ if !left.same_name(right) => Err(End::Fails),
            _ if left.is(SUM) => self.sums(left, right),
            _ => {
                push_children(&mut self.stack, left, right);
                Ok(())
            }
        }
    }

    fn sums(&mut self, left: &Term, right: &Term) -> Result<(), End> {
        match cancel(left, right, true, ac_equal) {
            Rest::Nothing => Ok(()),
            Rest::OneSide => Err(End::Fails),
            Rest::Pair(first, second) => {
                self.stack.push((first, second));
                Ok(())
            }
            Rest::More if never_equal(left, right) => Err(End::Fails),
            Rest::More => Err(End::Unknown),
        }
    }

    fn bind(&mut self, key: &Rc<str>, value: &Term) -> Result<(), End> {
        let sort = sort_of(key).ok_or(End::Unknown)?;
        if value.occurs(key) {
            return Err(End::Fails);
        }
        if has_sort(sort, value) {
            return self.put(key.clone(), value.clone());
        }
        let variable = Term::Variable(key.clone());
        if let Term::Variable(other) = value
            && sort_of(other).is_some_and(|sort| has_sort(sort, &variable))
        {
            return self.put(other.clone(), variable);
        }
        Err(if refinable(sort, value) {
            End::Unknown
        } else {
            End::Fails
        })
    }

    fn put(&mut self, key: Rc<str>, value: Term) -> Result<(), End> {
        let binding = [(key, value)];
        let single = values(&binding);
        let mut nodes = 0;
        for (left, right) in &self.stack {
            nodes += left.size_with(&single) + right.size_with(&single);
        }
        if nodes > LIMIT {
            return Err(End::Unknown);
        }
        for (left, right) in &mut self.stack {
            (*left, *right) = (left.put(&single), right.put(&single));
        }
        self.made.extend(binding);
        Ok(())
    }
}

// The last binding first: those made later are put into each value.
fn compose(made: Bindings) -> Option<Bindings> {
    let mut composed: Bindings = Vec::new();
    for (key, value) in made.into_iter().rev() {
        let later = values(&composed);
        if value.size_with(&later) > LIMIT {
            return None;
        }
        let value = value.put(&later);
        composed.push((key, value));
    }
    composed.reverse();
    Some(composed)
}

fn ended(end: End, spent: usize) -> Outcome {
    let verdict = match end {
        End::Fails => Verdict::Failed,
        End::Unknown => Verdict::Unsupported,
    };
    Outcome { verdict, spent }
}

fn stacked(pairs: &[Pair]) -> Vec<Pair> {
    pairs.iter().rev().cloned().collect()
}

pub fn unify(fuel: usize, pairs: &[Pair]) -> Outcome {
    unify_shown(fuel, pairs, |_| ())
}

/// The same, and each pair is shown as it is taken.
pub fn unify_shown(fuel: usize, pairs: &[Pair], mut show: impl FnMut(&Pair)) -> Outcome {
    let mut run = Unifier {
        stack: stacked(pairs),
        made: Vec::new(),
    };
    for spent in 0..fuel {
        let Some(pair) = run.stack.pop() else {
            let verdict = compose(run.made).map_or(Verdict::Unsupported, Verdict::Solved);
            return Outcome { verdict, spent };
        };
        show(&pair);
        if let Err(end) = run.step(&pair.0, &pair.1) {
            return ended(end, spent + 1);
        }
    }
    ended(End::Unknown, fuel)
}

struct Matcher {
    stack: Vec<Pair>,
    bindings: Bindings,
}

fn ground_partner(pattern: &Term, subject: &Term) -> bool {
    pattern.ground() && ac_equal(pattern, subject)
}

impl Matcher {
    fn step(&mut self, pattern: &Term, subject: &Term) -> Result<(), End> {
        match pattern {
            Term::Variable(key) => self.variable(key, subject),
            _ if !pattern.same_name(subject) => Err(End::Fails),
            _ if pattern.is(SUM) => self.sums(pattern, subject),
            _ => {
                push_children(&mut self.stack, pattern, subject);
                Ok(())
            }
        }
    }

    fn sums(&mut self, pattern: &Term, subject: &Term) -> Result<(), End> {
        match cancel(pattern, subject, false, ground_partner) {
            Rest::Nothing => Ok(()),
            Rest::OneSide => Err(End::Fails),
            Rest::Pair(first, second) => {
                self.stack.push((first, second));
                Ok(())
            }
            Rest::More => Err(End::Unknown),
        }
    }

    fn variable(&mut self, key: &Rc<str>, subject: &Term) -> Result<(), End> {
        let bound = self.bindings.iter().find(|binding| binding.0 == *key);
        match bound.map(|binding| ac_equal(&binding.1, subject)) {
            Some(true) => return Ok(()),
            Some(false) => return Err(End::Fails),
            None => {}
        }
        if !sort_of(key).is_some_and(|sort| has_sort(sort, subject)) {
            return Err(End::Fails);
        }
        self.bindings.push((key.clone(), subject.clone()));
        Ok(())
    }
}

pub fn matcher(fuel: usize, pairs: &[Pair]) -> Outcome {
    matcher_shown(fuel, pairs, |_| ())
}

/// The same, and each pair is shown as it is taken.
pub fn matcher_shown(fuel: usize, pairs: &[Pair], mut show: impl FnMut(&Pair)) -> Outcome {
    let mut run = Matcher {
        stack: stacked(pairs),
        bindings: Vec::new(),
    };
    for spent in 0..fuel {
        let Some(pair) = run.stack.pop() else {
            run.bindings.reverse();
            return Outcome {
                verdict: Verdict::Solved(run.bindings),
                spent,
            };
        };
        show(&pair);
        if let Err(end) = run.step(&pair.0, &pair.1) {
            return ended(end, spent + 1);
        }
    }
    ended(End::Unknown, fuel)
}
