// Reduction (01, "Reduction and variants"): children first, then one root rule.
use super::{
    sorts::message,
    term::{Term, ac_equal, apply},
};

pub fn normal(term: &Term) -> Term {
    match term {
        Term::Apply(name, children) if !children.is_empty() => {
            let reduced = apply(name, children.iter().map(normal).collect());
            root(name, reduced.children()).unwrap_or(reduced)
        }
        _ => term.clone(),
    }
}

fn arguments<'a>(term: &'a Term, symbol: &str) -> Option<&'a [Term]> {
    term.is(symbol).then(|| term.children())
}

fn root(name: &str, children: &[Term]) -> Option<Term> {
    match (name, children) {
        ("tamXCflip", [role]) => flipped(role),
        ("tamXCfst", [pair]) => parts(pair).map(|(first, _)| first),
        ("tamXCsnd", [pair]) => parts(pair).map(|(_, second)| second),
        ("tamXCsdec", [cipher, key]) => match arguments(cipher, "tamXCsenc")? {
            [payload, first] => opened(payload, first, key),
            _ => None,
        },
        ("tamXCkdec", [cipher, key]) => match arguments(cipher, "tamXCkem")? {
            [payload, public] => match arguments(public, "tamXCpk")? {
                [first] => opened(payload, first, key),
                _ => None,
            },
            _ => None,
        },
        _ => None,
    }
}

fn flipped(role: &Term) -> Option<Term> {
    if !role.children().is_empty() {
        return None;
    }
    match role {
        Term::Apply(name, _) if &**name == "tamXCroleA" => Some(apply("tamXCroleB", vec![])),
        Term::Apply(name, _) if &**name == "tamXCroleB" => Some(apply("tamXCroleA", vec![])),
        _ => None,
    }
}

fn parts(pair: &Term) -> Option<(Term, Term)> {
    match arguments(pair, "tamXCpair")? {
        [first, second] if message(first) && message(second) => {
            Some((first.clone(), second.clone()))
        }
        _ => None,
    }
}

fn opened(payload: &Term, first: &Term, second: &Term) -> Option<Term> {
    let opens = message(payload) && message(first) && ac_equal(first, second);
    opens.then(|| payload.clone())
}
