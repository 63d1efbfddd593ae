// Sheets at the limits: nodes, bytes, fuel, waiting pairs, composed bindings, schemes, pages, large terms.
use super::{
    pairs::changed,
    spelling::{shuffled, spelled, sum},
    terms::{apply, atom},
};
use crate::{model::Term, page, rng::Rng};

fn leaves(name: &str, leaf: &str, count: usize) -> String {
    format!("{name}({})", vec![leaf; count].join(","))
}

fn chain(name: &str, leaf: &str, depth: usize) -> String {
    format!(
        "{}{leaf}{}",
        format!("{name}(").repeat(depth),
        ")".repeat(depth)
    )
}

// One of the three numbers around a limit.
fn around(rng: &mut Rng, limit: usize) -> usize {
    limit - 1 + rng.below(3)
}

// A term with so many nodes, or one less.
fn nodes(rng: &mut Rng, count: usize) -> String {
    match rng.below(4) {
        0 => leaves("g", "a", count - 1),
        1 => chain("h", "c(0)", count - 1),
        2 => leaves("tamtplus", "t(0)", count / 2 + 1),
        _ => format!(
            "g({},{})",
            chain("h", "x0:Msg", 99),
            leaves("k", "b", count - 102)
        ),
    }
}

fn read(rng: &mut Rng) -> String {
    let count = around(rng, 4_096);
    let term = nodes(rng, count);
    match rng.below(6) {
        0 => format!("kind=reduce\nterm={term}\n"),
        1 => format!("kind=equal\nleft={term}\nright={term}\n"),
        2 => format!("kind=match\nfuel=9\nleft=x1:Msg\nright={term}\n"),
        3 => format!("kind=unify\nfuel=9\nleft={term}\nright={term}\n"),
        4 => format!("kind=sound\nterm=a\nmember={term}\n"),
        _ => format!("kind=cover\nleft=x1:Msg\nright=a\nmember=\nkey=x1:Msg\nvalue={term}\n"),
    }
}

// A sheet with so many bytes: blanks fill the last value.
fn bytes(rng: &mut Rng) -> String {
    let count = around(rng, 65_536);
    let mut text = match rng.below(3) {
        0 => "kind=equal\nleft=a\nright=a".to_owned(),
        1 => "kind=unify\nfuel=3\nleft=x0:Msg\nright=c(0)".to_owned(),
        _ => "kind=reduce\nterm=tamXCfst(tamXCpair(a,b))".to_owned(),
    };
    text.push_str(&" ".repeat(count - text.len() - 1));
    text.push('\n');
    text
}

fn fuel(rng: &mut Rng) -> String {
    let pairs = if rng.once_in(4) {
        rng.between(3_900, 4_300)
    } else {
        rng.between(1, 300)
    };
    let fuel = pairs - 1 + rng.below(3);
    let kind = rng.pick(&["unify", "match"]);
    let nested = chain("h", "x0:Msg", pairs - 1);
    let subject = chain("h", "c(0)", pairs - 1);
    if pairs <= 300 && rng.once_in(2) {
        return format!("kind={kind}\nfuel={fuel}\nleft={nested}\nright={subject}\n");
    }
    format!(
        "kind={kind}\nfuel={fuel}\n{}",
        "left=a\nright=a\n".repeat(pairs)
    )
}

// A binding of so many nodes put into waiting pairs that then have about 4,096 in all.
fn waiting(rng: &mut Rng) -> String {
    let value = leaves("g", "c(1)", rng.between(1, 99));
    let size = value.matches("c(1)").count() + 1;
    let total = around(rng, 4_096);
    // One side holds the variable so often, the other fills up; each has one node of its own.
    let times = rng.between(1, (total - 3) / size);
    let rest = total - 2 - times * size;
    let fill = if rest == 0 {
        "k".to_owned()
    } else {
        leaves("k", "b", rest)
    };
    let left = leaves("k", "x0:Msg", times);
    format!("kind=unify\nfuel=65536\nleft=x0:Msg\nright={value}\nleft={left}\nright={fill}\n")
}

// Bindings that double each time they are composed.
fn composed(rng: &mut Rng) -> String {
    let count = rng.between(9, 13);
    let mut lines = format!("kind=unify\nfuel={}\n", rng.between(count, count + 2));
    let down = rng.once_in(2);
    for step in 0..count {
        let index = if down { count - 1 - step } else { step };
        lines.push_str(&format!(
            "left=x{index}:Msg\nright=g(x{0}:Msg,x{0}:Msg)\n",
            index + 1
        ));
    }
    lines
}

// Few schemes, and up to 4,096 and beyond; now and then many members that generalize none.
fn schemes(rng: &mut Rng) -> String {
    let flips = |count: usize| leaves("g", "tamXCflip(x0:Msg)", count);
    let opened = |count: usize| {
        let one = |index| format!("tamXCsdec(x{index}:Msg,k)");
        let list: Vec<String> = (0..count).map(one).collect();
        format!("g({})", list.join(","))
    };
    let term = match rng.weighted(&[6, 6, 2, 1, 1, 1]) {
        0 => chain("tamXCfst", "c(0)", rng.between(1, 6)),
        1 => flips(rng.between(1, 4)),
        2 => leaves("g", "tamXCfst(a)", rng.between(12, 13)),
        3 => flips(rng.between(7, 8)),
        4 => opened(rng.between(8, 13)),
        _ => chain("tamXCsnd", "x0:Msg", rng.between(9, 13)),
    };
    let others = "member=c(9)\n".repeat(rng.below(40));
    let last = if rng.once_in(2) { "#0:Msg" } else { &term };
    format!("kind=complete\nterm={term}\n{others}member={last}\n")
}

fn instance(rng: &mut Rng) -> String {
    let value = leaves("k", "b", 63);
    let extra = rng.below(3);
    // 63 values of 64 nodes, the root, and so many leaves that 4,096 are nearly or just reached.
    let term = format!(
        "g({},{})",
        leaves("g", "x0:Msg", 63),
        leaves("g", "a", 60 + extra)
    );
    format!("kind=sound\nterm={term}\nmember=a\nkey=x0:Msg\nvalue={value}\n")
}

fn sums(rng: &mut Rng) -> String {
    let count = rng.between(2, 60);
    let left: Vec<String> = (0..count).map(|index| format!("t({index})")).collect();
    let right: Vec<String> = (1..=count)
        .rev()
        .map(|index| format!("t({index})"))
        .collect();
    let kind = rng.pick(&["unify", "match"]);
    format!(
        "kind={kind}\nfuel=9\nleft=tamtplus({})\nright=tamtplus({},x0:TamNat)\n",
        left.join(","),
        right.join(",")
    )
}

// Long names, copied by a binding.
fn names(rng: &mut Rng) -> String {
    let name = "name".repeat(rng.between(1, 3_000));
    let times = rng.between(1, 9);
    let kind = rng.pick(&["unify", "match"]);
    let left = leaves("g", "x0:Msg", times);
    match rng.below(3) {
        0 => {
            format!("kind={kind}\nfuel=99\nleft=x0:Msg\nright={name}\nleft=x1:Msg\nright={left}\n")
        }
        1 => format!("kind={kind}\nfuel=9\nleft=h({name})\nright=h({name}2)\n"),
        _ => format!(
            "kind=sound\nterm={left}\nmember={}\nkey=x0:Msg\nvalue={name}\n",
            leaves("g", &name, times)
        ),
    }
}

// Many members, or one with many keys, where the last key may be a repeated one.
fn members(rng: &mut Rng) -> String {
    let count = rng.between(20, 300);
    let kind = rng.pick(&[
        "cover\nleft=x0:Msg\nright=x299:Msg",
        "sound\nterm=a",
        "complete\nterm=x0:Msg",
    ]);
    if !kind.starts_with("sound") && rng.once_in(2) {
        let members = "member=b\nkey=x0:Msg\nvalue=b\n".repeat(count);
        let last = rng.pick(&["", "member=x1:Msg\n"]);
        return format!("kind={kind}\n{members}{last}");
    }
    let keys: String = (1..count)
        .map(|index| format!("key=x{index}:Msg\nvalue=a\n"))
        .collect();
    let last = rng.between(1, count);
    format!("kind={kind}\nmember=a\n{keys}key=x{last}:Msg\nvalue=a\n")
}

// A term with so many nodes and no variable.
fn large(rng: &mut Rng, nodes: usize) -> Term {
    if nodes < 3 {
        let letter = ['c', 't'][rng.below(2)];
        return atom(letter, rng.below(4));
    }
    let first = if rng.once_in(2) {
        1 + rng.below(nodes - 2)
    } else {
        1
    };
    match rng.below(6) {
        0 => apply("h", vec![large(rng, nodes - 1)]),
        1 => apply("tamtplus", vec![large(rng, nodes - 1)]),
        2 => {
            let (left, right) = (large(rng, first), large(rng, nodes - 1 - first));
            apply("g", vec![left, right])
        }
        _ => {
            let (left, right) = (large(rng, first), large(rng, nodes - 1 - first));
            sum(left, right)
        }
    }
}

// Two large terms that are equal, or were so before a change.
fn equal(rng: &mut Rng) -> String {
    let nodes = rng.between(100, 4_000);
    let left = large(rng, nodes);
    let mut right = shuffled(rng, &left);
    if rng.once_in(2) {
        right = changed(rng, &right);
    }
    let (left, right) = (spelled(rng, &left), spelled(rng, &right));
    format!("kind=equal\nleft={left}\nright={right}\n")
}

// How often each value of `of_lines` holds the one before it.
const NAMES: usize = 50;

/// A sheet whose answer takes so many lines on paper: three values of which each but the first holds the
/// one before it many times, the last under a name of as many letters as are missing.
pub fn of_lines(lines: usize) -> String {
    let text = page::WIDTH - page::KEY;
    let letters = (text * lines / (1 + NAMES + NAMES * NAMES)).saturating_sub(2);
    let (first, second) = (letters, NAMES * (letters + 1) + 2);
    // The lines of the verdict, of `spent` and of three keys, and of two values.
    let taken = 5 + first.div_ceil(text) + second.div_ceil(text);
    let last = text * (lines - taken);
    let name = "k".repeat(last - NAMES * (second + 1) - 1);
    let (long, inner) = ("a".repeat(letters), leaves("g", "x0:Msg", NAMES));
    let outer = leaves(&name, "x1:Msg", NAMES);
    format!(
        "kind=unify\nfuel=9\nleft=x0:Msg\nright={long}\nleft=x1:Msg\nright={inner}\n\
         left=x2:Msg\nright={outer}\n"
    )
}

// Texts and pages that are just full on paper, or not quite, or just begun.
fn on_paper(rng: &mut Rng) -> String {
    let text = page::WIDTH - page::KEY;
    let letters = match rng.weighted(&[6, 6, 1]) {
        0 => text * rng.between(1, 3) - 1 + rng.below(3),
        1 => text * page::BELOW * rng.between(1, 3) - 1 + rng.below(3),
        _ => {
            let most = page::BELOW * yukhtsami::MOST_PAGES;
            return of_lines(most - 1 + rng.below(3));
        }
    };
    let name = "a".repeat(letters);
    match rng.below(3) {
        0 => format!("kind=reduce\nterm={name}\n"),
        1 => format!("kind=unify\nfuel=9\nleft=x0:Msg\nright={name}\n"),
        _ => {
            let full = (page::BELOW - 1) / 2;
            let count = full * rng.between(1, 2) - 1 + rng.below(3);
            let list: Vec<String> = (0..count).map(|index| format!("x{index}:Msg")).collect();
            let (left, right) = (list.join(","), leaves("g", "a", count));
            format!("kind=match\nfuel=999\nleft=g({left})\nright={right}\n")
        }
    }
}

pub fn sheet(rng: &mut Rng) -> Vec<u8> {
    let text = match rng.weighted(&[4, 3, 4, 4, 3, 3, 2, 3, 3, 3, 6, 4]) {
        0 => read(rng),
        1 => bytes(rng),
        2 => fuel(rng),
        3 => waiting(rng),
        4 => composed(rng),
        5 => schemes(rng),
        6 => instance(rng),
        7 => sums(rng),
        8 => names(rng),
        9 => members(rng),
        10 => on_paper(rng),
        _ => equal(rng),
    };
    text.into_bytes()
}
