// Sheets to time: of `cover`, `sound` and `complete`.
use super::{Sample, Workload, nested, numbered, sum};

pub const COVERS: &[Workload] = &[
    Workload::new("members", "members", 20, cover_members),
    Workload::new("values", "values", 12, cover_values),
];

pub const SOUNDS: &[Workload] = &[Workload::new("chain", "levels", 250, sound_chain)];

pub const COMPLETES: &[Workload] = &[
    Workload::new("schemes", "schemes", 256, complete_schemes),
    Workload::new("members", "members", 20, complete_members),
    Workload::new("levels", "levels", 30, complete_levels),
];

fn sample(name: &'static str, sheet: String) -> Sample {
    Sample { name, sheet }
}

// So many variables bound to one term, by way of the first of them: the term has so many times a
// variable that is bound last to 40 nodes, so that the pairs stay small until then.
fn bound(count: usize, times: usize) -> String {
    let part = format!("x{count}:Msg");
    let mut lines: String = (1..count)
        .map(|index| format!("left=x{index}:Msg\nright=x0:Msg\n"))
        .collect();
    let all = vec![part.as_str(); times].join(",");
    let last = nested("h(", "a", ")", 39);
    lines.push_str(&format!(
        "left=x0:Msg\nright=g({all})\nleft={part}\nright={last}\n"
    ));
    lines
}

// Members that differ from the solution at one variable each.
fn others(count: usize, variables: usize) -> String {
    let member = |index| format!("member=\nkey=x{}:Msg\nvalue=c(9)\n", index % variables);
    (0..count).map(member).collect()
}

// So many members, none of which covers, against 50 values of 401 nodes.
fn cover_members(count: usize) -> String {
    format!("kind=cover\n{}{}", bound(50, 10), others(count, 50))
}

// So many values of 401 nodes against 20 members, none of which covers.
fn cover_values(count: usize) -> String {
    format!("kind=cover\n{}{}", bound(count, 10), others(20, count))
}

/// Small sheets.
pub fn covers() -> Vec<Sample> {
    let pair = "kind=cover\nleft=x0:Msg\nright=tamXCpair(x1:Pub,c(0))\n";
    let covers = "member=\nkey=x0:Msg\nvalue=tamXCpair(#0:Pub,c(0))\nkey=x1:Pub\nvalue=#0:Pub\n";
    let differs = "member=\nkey=x0:Msg\nvalue=tamXCpair(#0:Pub,c(1))\nkey=x1:Pub\nvalue=#0:Pub\n";
    vec![
        sample("small: one member", format!("{pair}{covers}")),
        sample(
            "small: four members",
            format!("{pair}{}{covers}", differs.repeat(3)),
        ),
    ]
}

// A chain over a variable, and as its variant the chain over an atom.
fn sound_chain(depth: usize) -> String {
    let under = |leaf| nested("h(", leaf, ")", depth);
    format!(
        "kind=sound\nterm={}\nmember={}\nkey=x0:Msg\nvalue=c(1)\n",
        under("x0:Msg"),
        under("c(1)")
    )
}

/// Small sheets, and a large instance.
pub fn sounds() -> Vec<Sample> {
    vec![
        sample(
            "small: first of a pair",
            "kind=sound\nterm=tamXCfst(x0:Msg)\nmember=#0:Msg\nkey=x0:Msg\n\
             value=tamXCpair(#0:Msg,#1:Msg)\n"
                .to_owned(),
        ),
        sample(
            "small: decryption",
            "kind=sound\nterm=tamXCsdec(x0:Msg,x1:Msg)\nmember=#0:Msg\nkey=x0:Msg\n\
             value=tamXCsenc(#0:Msg,#1:Msg)\nkey=x1:Msg\nvalue=#1:Msg\n"
                .to_owned(),
        ),
        sample("instance of 4,001 nodes", sound_chain(4_000)),
    ]
}

// So many projections of variables under a name.
fn projections(count: usize) -> String {
    let list = numbered(0..count, |index| format!("tamXCfst(x{index}:Msg)"));
    format!("g({})", list.join(","))
}

// A family of one member that every scheme has.
fn general(term: &str) -> String {
    format!("kind=complete\nterm={term}\nmember=#0:Msg\n")
}

// So many schemes, a power of two, and one member that generalizes each.
fn complete_schemes(count: usize) -> String {
    general(&projections(count.ilog2() as usize))
}

// 256 schemes against so many members, of which the last alone generalizes.
fn complete_members(count: usize) -> String {
    let others = "member=c(9)\n".repeat(count - 1);
    format!(
        "kind=complete\nterm={}\n{others}member=#0:Msg\n",
        projections(8)
    )
}

// 16 schemes under so many levels of `h`.
fn complete_levels(depth: usize) -> String {
    general(&nested("h(", &projections(4), ")", depth))
}

// 256 schemes with fresh variables as summands of two sums.
fn complete_sums() -> String {
    let first = |index: usize| format!("tamXCfst(x{index}:Msg)");
    let summed = |from: usize| sum(&(from..from + 4).map(first).collect::<Vec<_>>());
    general(&format!("g({},{})", summed(0), summed(4)))
}

/// Small sheets, many schemes, schemes of a large term, and many members.
pub fn completes() -> Vec<Sample> {
    vec![
        sample(
            "small: two schemes",
            "kind=complete\nterm=tamXCfst(x0:Msg)\nmember=tamXCfst(x0:Msg)\nmember=#0:Msg\n\
             key=x0:Msg\nvalue=tamXCpair(#0:Msg,#1:Msg)\n"
                .to_owned(),
        ),
        sample(
            "small: decryption",
            "kind=complete\nterm=tamXCsdec(x0:Msg,x1:Msg)\nmember=tamXCsdec(x0:Msg,x1:Msg)\n\
             member=#0:Msg\nkey=x0:Msg\nvalue=tamXCsenc(#0:Msg,#1:Msg)\nkey=x1:Msg\nvalue=#1:Msg\n"
                .to_owned(),
        ),
        sample("1,024 schemes", complete_schemes(1_024)),
        sample("4,096 schemes", complete_schemes(4_096)),
        sample("256 schemes, two sums of four", complete_sums()),
        sample(
            "256 schemes under 500 h",
            general(&nested("h(", &projections(8), ")", 500)),
        ),
        sample(
            "256 schemes, 301 members, the last generalizes",
            complete_members(301),
        ),
    ]
}

/// Sheets that take the Rust over 10 seconds, with the answers that it gave when they were stored:
/// many members against many large values, and many schemes of a large term.
pub fn slow() -> Vec<(Sample, &'static str)> {
    let deep = nested("h(", &projections(10), ")", 500);
    vec![
        (
            sample(
                "200 values of 4,001 nodes, 300 members, none covers",
                format!("kind=cover\n{}{}", bound(200, 100), others(300, 200)),
            ),
            "covered=no\n",
        ),
        (
            sample(
                "200 values of 4,001 nodes, 300 members, the last covers",
                format!(
                    "kind=cover\n{}{}member=\nkey=x7:Msg\nvalue=#0:Msg\n",
                    bound(200, 100),
                    others(299, 200)
                ),
            ),
            "covered=yes\n",
        ),
        (
            sample("1,024 schemes under 500 h", general(&deep)),
            "complete=yes\n",
        ),
        (
            sample(
                "1,024 schemes under 500 h, the first alone generalized",
                format!("kind=complete\nterm={deep}\nmember={deep}\n"),
            ),
            "complete=no\n",
        ),
    ]
}
