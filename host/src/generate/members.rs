// Members for `cover`, `sound` and `complete`: made from real solutions and variants, and damaged
// copies of them.
use std::rc::Rc;

use super::{
    lines::{at, instance},
    pairs::changed,
    spelling::{shuffled, spelled},
    terms::Terms,
};
use crate::{
    model::{Bindings, Term, Variant, general_variants, normal, sort_of},
    rng::Rng,
};

const UNREADABLE: [&str; 6] = ["", "g(", "t(x)", "tamtplus(t(0))", "a b", "p(0))"];

/// The term with each variable under another sigil, so that it is a fresh one.
fn renamed(term: &Term, sigil: char) -> Term {
    match term {
        Term::Variable(name) => Term::Variable(format!("{sigil}{}", &name[1..]).into()),
        Term::Atom(..) => term.clone(),
        Term::Apply(name, children) => Term::Apply(
            name.clone(),
            children.iter().map(|child| renamed(child, sigil)).collect(),
        ),
    }
}

fn entry(rng: &mut Rng, key: &str, value: &Term) -> String {
    format!("key={key}\nvalue={}\n", spelled(rng, value))
}

// Lines of a member, with one of them spoilt now and then.
fn lines(rng: &mut Rng, text: &str, bindings: &Bindings, damage: bool) -> String {
    let mut lines = format!("member={text}\n");
    let spoilt = if damage {
        rng.below(bindings.len() + 1)
    } else {
        usize::MAX
    };
    for (index, (key, value)) in bindings.iter().enumerate() {
        if index != spoilt {
            lines.push_str(&entry(rng, key, value));
            continue;
        }
        match rng.below(4) {
            0 => {}
            1 => lines.push_str(&format!("key={key}\nvalue={}\n", rng.pick(&UNREADABLE))),
            2 => {
                let other = changed(rng, value);
                lines.push_str(&entry(rng, key, &other));
            }
            _ => lines.push_str(&format!("key={key}\nvalue=c(9)\n")),
        }
    }
    if rng.once_in(8) {
        let key = rng.pick(&["", "y", "x77:Msg", "a=b", "tamXCfst(x0:Msg)"]);
        let value = if rng.once_in(3) {
            rng.pick(&UNREADABLE)
        } else {
            "c(0)"
        };
        lines.push_str(&format!("key={key}\nvalue={value}\n"));
    }
    lines
}

fn only(bindings: &Bindings, keys: &[Rc<str>]) -> Bindings {
    bindings
        .iter()
        .filter(|binding| keys.contains(&binding.0))
        .cloned()
        .collect()
}

fn specialized(rng: &mut Rng, bindings: &Bindings, keys: &[Rc<str>]) -> Bindings {
    let mut found = only(bindings, keys);
    for key in keys {
        if !found.iter().any(|binding| binding.0 == *key)
            && let Some(sort) = sort_of(key)
            && rng.once_in(2)
        {
            let value = Terms {
                rng,
                variables: 0,
                tidy: true,
            }
            .of_sort(sort, 1);
            found.push((key.clone(), value));
        }
    }
    found
}

/// Members for pairs with these variables and solution.
pub fn for_cover(rng: &mut Rng, solution: &Bindings, keys: &[Rc<str>]) -> String {
    let mut members = String::new();
    for _ in 0..rng.weighted(&[2, 6, 4, 1]) {
        let text = rng.pick(&["", "x", "ignored, ) here", "c(0)"]);
        let sigil = if rng.once_in(2) { '#' } else { '%' };
        let mut bindings: Bindings = only(solution, keys)
            .into_iter()
            .map(|(k, v)| (k, renamed(&v, sigil)))
            .collect();
        if rng.once_in(2) {
            bindings = specialized(rng, &bindings, keys);
        }
        if rng.once_in(2) {
            for binding in &mut bindings {
                binding.1 = changed(rng, &binding.1);
            }
        }
        let damage = rng.once_in(6);
        members.push_str(&lines(rng, text, &bindings, damage));
    }
    members
}

/// One member for a term: the normal form of an instance, or nearly that.
pub fn for_sound(rng: &mut Rng, term: &Term) -> String {
    let mut bindings: Bindings = Vec::new();
    for key in term.variables() {
        let Some(sort) = sort_of(&key) else { continue };
        if rng.once_in(4) {
            continue;
        }
        let mut terms = Terms {
            rng,
            variables: 2,
            tidy: true,
        };
        let pairs = terms.rng.once_in(3) && sort.name() == "Msg";
        let value = if pairs {
            terms.redex(1).children()[0].clone()
        } else {
            terms.of_sort(sort, 1)
        };
        bindings.push((key, value));
    }
    let instance = instance(term, &bindings);
    let mut value = shuffled(rng, &normal(&instance));
    if rng.once_in(3) {
        value = changed(rng, &value);
    }
    let text = if rng.once_in(10) {
        rng.pick(&UNREADABLE).to_owned()
    } else {
        spelled(rng, &value)
    };
    let damage = rng.once_in(8);
    lines(rng, &text, &bindings, damage)
}

// One above every index of the variables.
fn fresh_index(keys: &[Rc<str>]) -> usize {
    let index = |key: &Rc<str>| key[1..].split(':').next()?.parse::<usize>().ok();
    let above = keys
        .iter()
        .filter_map(index)
        .filter_map(|index| index.checked_add(1));
    above.max().unwrap_or(0)
}

// The members with the name of a fresh variable over arguments, or with leading zeros.
fn over_arguments(rng: &mut Rng, members: &str, keys: &[Rc<str>]) -> String {
    let index = fresh_index(keys).saturating_add(rng.below(3));
    let other = rng.pick(&[
        "x{}:Msg(c(0))",
        "x{}:Msg(x{}:Msg)",
        "x00{}:Msg",
        "x000:Msg(a)",
    ]);
    members.replace(
        &format!("x{index}:Msg"),
        &other.replace("{}", &index.to_string()),
    )
}

/// The variants of the term as a family, or nearly that.
pub fn for_complete(rng: &mut Rng, term: &Term) -> String {
    let keys = term.variables();
    let mut variants = general_variants(term).unwrap_or_default();
    variants.truncate(12);
    rng.shuffle(&mut variants);
    if rng.once_in(4) {
        variants.pop();
    }
    let damaged = if rng.once_in(3) {
        rng.below(variants.len() + 1)
    } else {
        usize::MAX
    };
    let rename = rng.once_in(2);
    let mut members = String::new();
    for (index, Variant { value, bindings }) in variants.iter().enumerate() {
        let mut value = value.clone();
        let mut bindings = only(bindings, &keys);
        if rename {
            value = renamed(&value, '#');
            bindings = keys
                .iter()
                .map(|key| (key.clone(), renamed(&at(key, &bindings), '#')))
                .collect();
        }
        let damage = index == damaged;
        if damage && rng.once_in(3) {
            value = changed(rng, &value);
        }
        let value = shuffled(rng, &value);
        let text = spelled(rng, &value);
        members.push_str(&lines(rng, &text, &bindings, damage));
    }
    if !rename && rng.once_in(6) {
        members = over_arguments(rng, &members, &keys);
    }
    members
}
