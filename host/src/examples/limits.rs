// The limits: bytes, nodes, words, waiting pairs, composed bindings, schemes.
use yukhtsami::Refusal::{ShortOutput, ShortWorkArea, TooLong, UnreadableTerm};

use super::{Example, answered, lent, refused};

fn leaves(name: &str, leaf: &str, count: usize) -> String {
    format!("{name}({})", vec![leaf; count].join(","))
}

pub fn examples() -> Vec<Example> {
    let mut list = sizes();
    list.extend(words());
    list.extend(solving());
    list.extend(variants());
    list
}

fn sizes() -> Vec<Example> {
    let most = leaves("g", "a", 4_095);
    let over = leaves("g", "a", 4_096);
    let padded = |count: usize| format!("kind=equal|left=a|right=a{}|", " ".repeat(count - 26));
    vec![
        answered(
            "nodes-4096",
            &format!("kind=reduce|term={most}"),
            &format!("normal={most}"),
        ),
        refused(
            "nodes-4097",
            &format!("kind=reduce|term={over}|"),
            UnreadableTerm,
        ),
        answered(
            "equal-has-no-limit",
            &format!("kind=equal|left={over}|right={over}"),
            "equal=yes",
        ),
        answered(
            "member-over-the-limit",
            &format!("kind=sound|term=a|member={over}"),
            "sound=none",
        ),
        answered(
            "bytes-65536",
            padded(65_536).trim_end_matches('|'),
            "equal=yes",
        ),
        refused("bytes-65537", &padded(65_537), TooLong),
    ]
}

fn words() -> Vec<Example> {
    let empty = "kind=unify|fuel=1";
    let solved = "verdict=solved|spent=0";
    let colons = "kind=cover|member=:|key=x0:Msg|value=:(";
    let need = |colons: u64, bytes: u64| 65_536 * (colons + 16) + 16 * bytes;
    let family = "kind=complete|term=tamXCfst(x0:Msg)|member=x1:Msg(a)";
    let brackets = format!("kind=complete|term={}|", "(".repeat(32_756));
    vec![
        lent(answered("more-words", empty, solved), 1_048_865, 24),
        lent(
            refused("no-words", "kind=unify|fuel=1|", ShortWorkArea),
            0,
            23,
        ),
        lent(
            refused("no-room", "kind=unify|fuel=1|", ShortOutput),
            1_048_864,
            0,
        ),
        lent(
            refused("eleven-before-four", "kind=reduce|term=(|", ShortWorkArea),
            need(0, 19) - 1,
            9,
        ),
        lent(
            refused("four-before-twelve", "kind=reduce|term=(|", UnreadableTerm),
            need(0, 19),
            0,
        ),
        lent(
            answered("every-colon-counts", colons, "covered=yes"),
            need(3, 40),
            12,
        ),
        lent(
            refused(
                "every-colon-counts-less",
                &format!("{colons}|"),
                ShortWorkArea,
            ),
            need(3, 40) - 1,
            12,
        ),
        lent(
            answered("complete-raises", family, "complete=no"),
            need(4, 53),
            12,
        ),
        lent(
            refused("complete-raises-less", &format!("{family}|"), ShortWorkArea),
            need(4, 53) - 1,
            12,
        ),
        lent(
            refused("words-over-32-bits", &brackets, ShortWorkArea),
            1_441_792,
            100,
        ),
    ]
}

fn solving() -> Vec<Example> {
    // 64 nodes put in for 32 variables, two roots, and so many leaves beside them.
    let value = leaves("g", "a", 63);
    let waiting = |rest: usize| {
        let (left, right) = (leaves("k", "x0:Msg", 32), leaves("k", "b", rest));
        format!("kind=unify|fuel=9|left=x0:Msg|right={value}|left={left}|right={right}")
    };
    let doubled = |count: usize| {
        let mut lines = "kind=unify|fuel=99".to_owned();
        for index in 0..count {
            lines.push_str(&format!(
                "|left=x{index}:Msg|right=g(x{0}:Msg,x{0}:Msg)",
                index + 1
            ));
        }
        lines
    };
    vec![
        answered("waiting-4096", &waiting(2_046), "verdict=failed|spent=3"),
        answered(
            "waiting-4097",
            &waiting(2_047),
            "verdict=unsupported|spent=1",
        ),
        answered(
            "composed-over",
            &doubled(12),
            "verdict=unsupported|spent=12",
        ),
    ]
}

fn variants() -> Vec<Example> {
    let value = leaves("k", "b", 63);
    let instance = |rest: usize| {
        let (many, few) = (leaves("g", "x0:Msg", 63), leaves("g", "a", rest));
        format!("kind=sound|term=g({many},{few})|member=a|key=x0:Msg|value={value}")
    };
    let schemes = |count: usize| {
        let term = leaves("g", "tamXCfst(a)", count);
        format!("kind=complete|term={term}|member=x0:Msg")
    };
    vec![
        answered("instance-4096", &instance(61), "sound=no"),
        answered("instance-4097", &instance(62), "sound=none"),
        answered("schemes-4096", &schemes(12), "complete=yes"),
        answered("schemes-8192", &schemes(13), "complete=none"),
    ]
}
