// `covered` (01, "Solving"): whether some member generalizes the pairs' most general unifier.
use std::rc::Rc;

use super::{
    FUEL,
    reading::read,
    solving::{Verdict, matcher, unify},
    term::{Pair, Term, lookup},
};
use crate::sheet::Member;

/// Everything but a failure counts as covering.
pub fn covering(pairs: &[Pair]) -> bool {
    matcher(FUEL, pairs).verdict != Verdict::Failed
}

fn variables(pairs: &[Pair]) -> Vec<Rc<str>> {
    let mut found: Vec<_> = pairs
        .iter()
        .flat_map(|(l, r)| [l.variables(), r.variables()])
        .flatten()
        .collect();
    found.sort_unstable();
    found.dedup();
    found
}

fn general(member: &Member, variable: &Rc<str>) -> Option<Term> {
    match member.entries.iter().find(|entry| *entry.0 == **variable) {
        Some((_, text)) => read(text),
        None => Some(Term::Variable(variable.clone())),
    }
}

/// None where the pairs are not solved.
pub fn covered(pairs: &[Pair], members: &[Member]) -> Option<bool> {
    let Verdict::Solved(bindings) = unify(FUEL, pairs).verdict else {
        return None;
    };
    let variables = variables(pairs);
    let covers = |member: &Member| {
        let against: Option<Vec<Pair>> = variables
            .iter()
            .map(|name| Some((general(member, name)?, lookup(name, &bindings))))
            .collect();
        against.is_none_or(|pairs| covering(&pairs))
    };
    Some(members.iter().any(covers))
}
