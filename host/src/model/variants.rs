// `sound` and `complete` (01, "Reduction and variants"), and the variants of a term.
use std::rc::Rc;

use super::{
    FUEL, LIMIT,
    cover::covering,
    reading::read,
    reduction::normal,
    solving::{Verdict, unify},
    term::{Bindings, Pair, Term, ac_equal, apply, lookup, values},
};
use crate::sheet::Member;

const MOST_SCHEMES: usize = 4_096;

/// A term's variant: its value, and the bindings that give it.
#[derive(Clone, Debug)]
pub struct Variant {
    pub value: Term,
    pub bindings: Bindings,
}

#[derive(Clone)]
struct Scheme {
    values: Vec<Term>,
    equations: Vec<Pair>,
    next: u64,
}

/// The member's texts read; none where one is unreadable.
pub fn read_member(member: &Member) -> Option<Variant> {
    let entries = member.entries.iter();
    let bindings: Option<_> = entries
        .map(|(key, text)| Some(((*key).into(), read(text)?)))
        .collect();
    Some(Variant {
        value: read(member.text)?,
        bindings: bindings?,
    })
}

fn instance(term: &Term, bindings: &Bindings) -> Option<Term> {
    let values = values(bindings);
    (term.size_with(&values) <= LIMIT).then(|| term.put(&values))
}

pub fn sound(term: &Term, member: &Variant) -> Option<bool> {
    let instance = instance(term, &member.bindings)?;
    Some(ac_equal(&normal(&instance), &member.value))
}

// One above the index of a variable x<index>:<Sort>, which is below 2^63.
fn above(name: &str) -> Option<u64> {
    let digits = name.strip_prefix('x')?.split_once(':')?.0;
    if digits.len() > 1 && digits.starts_with('0') {
        return None;
    }
    digits
        .parse::<u64>()
        .ok()
        .filter(|index| *index < 1 << 63)
        .map(|index| index + 1)
}

fn fresh(index: u64) -> Term {
    Term::Variable(format!("x{index}:Msg").into())
}

fn constant(name: &str) -> Term {
    apply(name, vec![])
}

// What the root may become by a rule: its value, the rule's equations and the next fresh index.
fn firings(name: &str, children: &[Term], next: u64) -> Vec<(Term, Vec<Pair>, u64)> {
    let (one, two) = (fresh(next), fresh(next + 1));
    match (name, children) {
        ("tamXCfst" | "tamXCsnd", [child]) => {
            let pair = apply("tamXCpair", vec![one.clone(), two.clone()]);
            let value = if name == "tamXCfst" { one } else { two };
            vec![(value, vec![(child.clone(), pair)], next + 2)]
        }
        ("tamXCflip", [child]) => [("tamXCroleB", "tamXCroleA"), ("tamXCroleA", "tamXCroleB")]
            .map(|(to, from)| (constant(to), vec![(child.clone(), constant(from))], next))
            .into(),
        ("tamXCsdec" | "tamXCkdec", [child, key]) => {
            let cipher = if name == "tamXCsdec" {
                apply("tamXCsenc", vec![one.clone(), two.clone()])
            } else {
                apply(
                    "tamXCkem",
                    vec![one.clone(), apply("tamXCpk", vec![two.clone()])],
                )
            };
            vec![(
                one,
                vec![(child.clone(), cipher), (key.clone(), two)],
                next + 2,
            )]
        }
        _ => vec![],
    }
}

// Children left to right, then the root: "stay" before the rules. None over the limit.
fn schemes(term: &Term, next: u64) -> Option<Vec<Scheme>> {
    let Term::Apply(name, children) = term else {
        return Some(vec![Scheme {
            values: vec![term.clone()],
            equations: vec![],
            next,
        }]);
    };
    let mut joined = vec![Scheme {
        values: vec![],
        equations: vec![],
        next,
    }];
    for child in children.iter() {
        let mut longer = Vec::new();
        for before in joined {
            for mut scheme in schemes(child, before.next)? {
                scheme.values.splice(0..0, before.values.iter().cloned());
                scheme
                    .equations
                    .splice(0..0, before.equations.iter().cloned());
                longer.push(scheme);
            }
            if longer.len() > MOST_SCHEMES {
                return None;
            }
        }
        joined = longer;
    }
    let found: Vec<Scheme> = joined
        .into_iter()
        .flat_map(|scheme| rooted(name, scheme))
        .collect();
    (found.len() <= MOST_SCHEMES).then_some(found)
}

fn rooted(name: &Rc<str>, scheme: Scheme) -> Vec<Scheme> {
    let mut fired: Vec<Scheme> = firings(name, &scheme.values, scheme.next)
        .into_iter()
        .map(|(value, mut equations, next)| {
            equations.extend(scheme.equations.iter().cloned());
            Scheme {
                values: vec![value],
                equations,
                next,
            }
        })
        .collect();
    let stay = Term::Apply(name.clone(), scheme.values.into());
    fired.insert(
        0,
        Scheme {
            values: vec![stay],
            ..scheme
        },
    );
    fired
}

/// The variants that a complete family has to generalize; none where there is no claim.
pub fn general_variants(term: &Term) -> Option<Vec<Variant>> {
    let mut base = 0;
    for name in term.variables() {
        base = base.max(above(&name)?);
    }
    let mut solved = Vec::new();
    for scheme in schemes(term, base)? {
        let value = scheme.values[0].clone();
        let mut system = scheme.equations;
        system.push((term.clone(), term.clone()));
        system.push((value.clone(), value.clone()));
        match unify(FUEL, &system).verdict {
            Verdict::Solved(bindings) => solved.push(Variant { value, bindings }),
            Verdict::Failed => {}
            Verdict::Unsupported => return None,
        }
    }
    let mut found = Vec::new();
    for Variant { value, bindings } in solved {
        let value = instance(&value, &bindings)?;
        if ac_equal(&value, &normal(&value)) {
            found.push(Variant { value, bindings });
        }
    }
    Some(found)
}

pub fn complete(term: &Term, members: &[Variant]) -> Option<bool> {
    let keys = term.variables();
    let generalized = |variant: &Variant, member: &Variant| {
        let mut pairs: Vec<Pair> = keys
            .iter()
            .map(|key| {
                (
                    lookup(key, &member.bindings),
                    lookup(key, &variant.bindings),
                )
            })
            .collect();
        pairs.push((member.value.clone(), variant.value.clone()));
        covering(&pairs)
    };
    let variants = general_variants(term)?;
    Some(
        variants
            .iter()
            .all(|variant| members.iter().any(|member| generalized(variant, member))),
    )
}
