// Sheets to time: of `unify` and `match`.
use super::{Sample, Workload, nested, numbered, reversed, sum};

pub const UNIFICATIONS: &[Workload] = &[
    Workload::new("chains, leaf bound", "levels", 255, |n| chains("unify", n)),
    Workload::new("sums, reversed", "summands", 128, |n| sums("unify", n)),
    Workload::new("bindings", "bindings", 90, |n| bindings("unify", n)),
    Workload::new("linked bindings", "bindings", 30, |n| linked("unify", n)),
];

pub const MATCHES: &[Workload] = &[
    Workload::new("chains, leaf bound", "levels", 255, |n| chains("match", n)),
    Workload::new("sums, reversed", "summands", 128, |n| sums("match", n)),
    Workload::new("bindings", "bindings", 90, |n| bindings("match", n)),
];

fn solving(kind: &str, pairs: &[(String, String)]) -> String {
    let mut sheet = format!("kind={kind}\nfuel=65536\n");
    for (left, right) in pairs {
        sheet.push_str(&format!("left={left}\nright={right}\n"));
    }
    sheet
}

fn one(kind: &str, left: &str, right: &str) -> String {
    solving(kind, &[(left.to_owned(), right.to_owned())])
}

// `h` so many levels deep, over a variable and over an atom.
fn chains(kind: &str, depth: usize) -> String {
    let under = |leaf| nested("h(", leaf, ")", depth);
    one(kind, &under("x0:Msg"), &under("c(1)"))
}

// Sums of so many numbered atoms, one of them backward.
fn sums(kind: &str, count: usize) -> String {
    let list = numbered(0..count, |index| format!("t({index})"));
    one(kind, &sum(&list), &sum(&reversed(&list)))
}

// So many variables, each bound to an atom.
fn bindings(kind: &str, count: usize) -> String {
    let apply = |list: Vec<String>| format!("g({})", list.join(","));
    one(
        kind,
        &apply(numbered(0..count, |index| format!("x{index}:Msg"))),
        &apply(numbered(0..count, |index| format!("c({index})"))),
    )
}

// So many variables, each bound to a term with the next.
fn linked(kind: &str, count: usize) -> String {
    let pair = |index| (format!("x{index}:Msg"), format!("h(x{}:Msg)", index + 1));
    let pairs: Vec<_> = (0..count).map(pair).collect();
    solving(kind, &pairs)
}

// Sheets as they come from protocol models.
fn small(kind: &str) -> Vec<Sample> {
    let made = |name, left, right| Sample {
        name,
        sheet: one(kind, left, right),
    };
    vec![
        made(
            "small: two bindings",
            "g(x0:Msg,x1:Pub)",
            "g(tamXCpair(x1:Pub,c(0)),p(2))",
        ),
        made(
            "small: sums",
            "tamtplus(x0:TamNat,t(1))",
            "tamtplus(t(1),t(2),t(3))",
        ),
        made(
            "small: encryption",
            "tamXCsenc(tamXCpair(x0:Msg,x1:Fresh),tamXCpk(x2:Fresh))",
            "tamXCsenc(tamXCpair(tamXCpair(p(1),f(3)),f(2)),tamXCpk(f(4)))",
        ),
    ]
}

fn large(kind: &str) -> Vec<Sample> {
    let under = |leaf| nested("h(", leaf, ")", 4_095);
    let list = numbered(0..2_048, |index| format!("t({index})"));
    let mut with_key = list.clone();
    with_key[2_047] = "x0:TamNat".to_owned();
    let other = numbered(3_000..5_048, |index| format!("t({index})"));
    let (with_key, backward) = (sum(&with_key), sum(&reversed(&list)));
    let differ = one(kind, &under("c(0)"), &under("c(1)"));
    let same = one(kind, &under("c(1)"), &under("c(1)"));
    let made = |name, sheet| Sample { name, sheet };
    vec![
        made("chain of 4,096, leaf bound", chains(kind, 4_095)),
        made("chain of 4,096, leaf differs", differ),
        made("chain of 4,096, same", same),
        made("sums of 2,048, reversed", sums(kind, 2_048)),
        made(
            "sums of 2,048, one variable",
            one(kind, &with_key, &backward),
        ),
        made(
            "sums of 2,048, none in common",
            one(kind, &sum(&list), &sum(&other)),
        ),
        made("1,500 bindings", bindings(kind, 1_500)),
        made("500 bindings, each in the one before", linked(kind, 500)),
    ]
}

/// Small sheets, chains, sums and many bindings.
pub fn solvings(kind: &str) -> Vec<Sample> {
    [small(kind), large(kind)].concat()
}
