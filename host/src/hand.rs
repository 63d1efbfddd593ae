// The check of an answer with pencil and paper (docs/READING-AN-ANSWER.md), done by the host: is
// the sheet tidy, are the values well-sorted, and what are the sides with the bindings put in.
use std::collections::BTreeMap;

use crate::{
    model::{self, Pair, SUM, Term},
    sheet,
};

const ONE: &str = "tamXCtone";

/// The pairs of a sheet of kind `unify` or `match`, and whether it is `unify`.
pub fn pairs(bytes: &[u8]) -> Option<(bool, usize, Vec<Pair>)> {
    let sheet = sheet::read(bytes).ok()?;
    let unify = match sheet.kind.name {
        "unify" => true,
        "match" => false,
        _ => return None,
    };
    let read = |(left, right): &sheet::Pair| Some((model::read(left)?, model::read(right)?));
    let pairs: Option<Vec<Pair>> = sheet.pairs.iter().map(read).collect();
    Some((unify, sheet.fuel, pairs?))
}

/// The pairs that a sheet of kind `unify` or `match` takes from its stack, as texts.
pub fn taken(bytes: &[u8]) -> Option<Vec<(String, String)>> {
    let (unify, fuel, pairs) = pairs(bytes)?;
    let mut taken = Vec::new();
    let show = |pair: &Pair| taken.push((pair.0.to_string(), pair.1.to_string()));
    if unify {
        model::unify_shown(fuel, &pairs, show);
    } else {
        model::matcher_shown(fuel, &pairs, show);
    }
    Some(taken)
}

/// The bindings of an answer that is solved.
pub fn bindings(answer: &[u8]) -> Option<Vec<Pair>> {
    let text = std::str::from_utf8(answer).ok()?;
    let mut lines = text.strip_prefix("verdict=solved\n")?.lines().skip(1);
    let mut found = Vec::new();
    while let Some(key) = lines.next() {
        let key = model::read(key.strip_prefix("key=")?)?;
        let value = model::read(lines.next()?.strip_prefix("value=")?)?;
        found.push((key, value));
    }
    Some(found)
}

/// Whether all trees of the pairs together are tidy.
pub fn tidy(pairs: &[Pair]) -> bool {
    let mut counts = BTreeMap::from([(SUM.to_owned(), 2), (ONE.to_owned(), 0)]);
    pairs
        .iter()
        .all(|(left, right)| tidy_tree(left, &mut counts) && tidy_tree(right, &mut counts))
}

fn tidy_tree(tree: &Term, counts: &mut BTreeMap<String, usize>) -> bool {
    match tree {
        Term::Variable(name) => model::sort_of(name).is_some(),
        Term::Atom(..) => true,
        Term::Apply(name, children) => {
            let count = *counts.entry(name.to_string()).or_insert(children.len());
            !name.contains(':')
                && count == children.len()
                && children.iter().all(|child| tidy_tree(child, counts))
        }
    }
}

/// Whether each value has the sort of its key, and no two keys are the same.
pub fn well_sorted(bindings: &[Pair]) -> bool {
    let sorted = |(key, value): &Pair| match key {
        Term::Variable(name) => {
            model::sort_of(name).is_some_and(|sort| model::has_sort(sort, value))
        }
        _ => false,
    };
    let mut keys: Vec<&Term> = bindings.iter().map(|binding| &binding.0).collect();
    keys.sort_unstable();
    bindings.iter().all(sorted) && keys.windows(2).all(|two| two[0] != two[1])
}

/// Whether no key occurs in a value.
pub fn apart(bindings: &[Pair]) -> bool {
    let keys: Vec<String> = bindings.iter().map(|(key, _)| key.to_string()).collect();
    bindings
        .iter()
        .all(|(_, value)| keys.iter().all(|key| !value.occurs(key)))
}

/// For each pair the sheet that asks whether its sides are equal with the bindings put in, all at
/// once: into both sides for `unify`, into the left side for `match`.
pub fn questions(unify: bool, pairs: &[Pair], bindings: &[Pair]) -> Vec<String> {
    let named = |(key, value): &Pair| (key.to_string().into(), value.clone());
    let bindings: model::Bindings = bindings.iter().map(named).collect();
    let values = model::values(&bindings);
    let ask = |(left, right): &Pair| {
        let right = if unify {
            right.put(&values)
        } else {
            right.clone()
        };
        format!("kind=equal\nleft={}\nright={right}\n", left.put(&values))
    };
    pairs.iter().map(ask).collect()
}
