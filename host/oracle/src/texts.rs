// Questions to the Rust from texts to texts, with no types of this crate in between: what is
// compared and timed.
use crate::{
    Member,
    bridge::{claimed, variant},
    reduction, unifier, variants,
};

type Trees = Vec<(unifier::Tree, unifier::Tree)>;

fn trees(pairs: &[(&str, &str)]) -> Option<Trees> {
    let read = |(left, right): &(&str, &str)| Some((unifier::parse(left)?, unifier::parse(right)?));
    pairs.iter().map(read).collect()
}

/// The verdict of `matcher`, or of `unify`, and its bindings in lines; none where a text is
/// unreadable.
pub fn solved(matching: bool, fuel: usize, pairs: &[(&str, &str)]) -> Option<String> {
    let pairs = trees(pairs)?;
    let found = if matching {
        unifier::matcher(fuel, pairs)
    } else {
        unifier::unify(fuel, pairs)
    };
    Some(match found.expect("trees that were read render readably") {
        unifier::Outcome::Failed => "verdict=failed\n".to_owned(),
        unifier::Outcome::Unsupported => "verdict=unsupported\n".to_owned(),
        unifier::Outcome::Solved(bindings) => {
            let mut answer = "verdict=solved\n".to_owned();
            for (key, value) in bindings {
                answer.push_str(&format!("key={key}\nvalue={}\n", unifier::render(&value)));
            }
            answer
        }
    })
}

/// The normal form of a term.
pub fn reduced(term: &str) -> Option<String> {
    let normal = reduction::normalize(&unifier::parse(term)?);
    Some(unifier::render(
        &normal.expect("trees that were read render readably"),
    ))
}

/// Whether a member generalizes the most general unifier; none within where there is no claim.
pub fn covered(pairs: &[(&str, &str)], members: &[Member]) -> Option<Option<bool>> {
    claimed(pairs, members)
}

/// Whether the member is the normal form of its instance.
pub fn sound(term: &str, member: &Member) -> Option<Option<bool>> {
    let term = unifier::parse(term)?;
    let Some(read) = variant(member) else {
        return Some(None);
    };
    Some(variants::sound(&term, &read, member.text).expect("texts that were read"))
}

/// Whether the family has every variant.
pub fn complete(term: &str, members: &[Member]) -> Option<Option<bool>> {
    let term = unifier::parse(term)?;
    let Some(family) = members.iter().map(variant).collect::<Option<Vec<_>>>() else {
        return Some(None);
    };
    Some(variants::complete(&term, &family).expect("trees that were read render readably"))
}
