// Deep and wide terms, and answers far longer than their sheets.
use yukhtsami::Refusal::{ShortOutput, UnreadableTerm};

use super::{Example, answered, lent, refused};

fn chain(leaf: &str, depth: usize) -> String {
    format!("{}{leaf}{}", "h(".repeat(depth), ")".repeat(depth))
}

pub fn examples() -> Vec<Example> {
    let mut list = deep();
    list.extend(wide());
    list
}

fn deep() -> Vec<Example> {
    let most = chain("a", 4_095);
    let (pattern, subject) = (chain("x0:Msg", 1_999), chain("c(0)", 1_999));
    let pair = format!("left={pattern}|right={subject}");
    let redexes = format!(
        "{}c(0){}",
        "tamXCfst(tamXCpair(".repeat(1_300),
        ",a))".repeat(1_300)
    );
    let loose = chain("a", 5_000);
    vec![
        answered(
            "deep-reduce",
            &format!("kind=reduce|term={most}"),
            &format!("normal={most}"),
        ),
        refused(
            "deep-refused",
            &format!("kind=reduce|term=h({most})|"),
            UnreadableTerm,
        ),
        answered(
            "deep-redexes",
            &format!("kind=reduce|term={redexes}"),
            "normal=c(0)",
        ),
        answered(
            "deep-equal",
            &format!("kind=equal|left={loose}|right={loose}"),
            "equal=yes",
        ),
        answered(
            "deep-unify",
            &format!("kind=unify|fuel=2001|{pair}"),
            "verdict=solved|spent=2000|key=x0:Msg|value=c(0)",
        ),
        answered(
            "deep-unify-fuel",
            &format!("kind=unify|fuel=2000|{pair}"),
            "verdict=unsupported|spent=2000",
        ),
        answered(
            "deep-match",
            &format!("kind=match|fuel=65536|{pair}"),
            "verdict=solved|spent=2000|key=x0:Msg|value=c(0)",
        ),
        answered(
            "deep-failure",
            &format!("kind=match|fuel=65536|left={subject}|right={pattern}"),
            "verdict=failed|spent=2000",
        ),
        answered(
            "deep-cover",
            &format!("kind=cover|left=x1:Msg|right={subject}|member=|key=x1:Msg|value={pattern}"),
            "covered=yes",
        ),
        answered(
            "deep-sound",
            &format!("kind=sound|term={pattern}|member={subject}|key=x0:Msg|value=c(0)"),
            "sound=yes",
        ),
    ]
}

fn wide() -> Vec<Example> {
    let up: Vec<String> = (0..400).map(|index| format!("t({index})")).collect();
    let down: Vec<String> = (1..400).rev().map(|index| format!("t({index})")).collect();
    let (up, down) = (up.join(","), down.join(","));
    let pair = format!("left=tamtplus({up})|right=tamtplus({down},x0:TamNat)");
    let name = "name".repeat(250);
    let mut doubled = "kind=unify|fuel=99|".to_owned();
    for index in 0..10 {
        let next = index + 1;
        doubled.push_str(&format!(
            "left=x{index}:Msg|right=g(x{next}:Msg,x{next}:Msg)|"
        ));
    }
    doubled.push_str(&format!("left=x10:Msg|right={name}|"));
    vec![
        answered(
            "wide-sums",
            &format!("kind=unify|fuel=9|{pair}"),
            "verdict=solved|spent=2|key=x0:TamNat|value=t(0)",
        ),
        answered(
            "wide-sums-match",
            &format!("kind=match|fuel=9|{pair}"),
            "verdict=failed|spent=2",
        ),
        lent(
            refused("long-answer", &doubled, ShortOutput),
            65_536 * 64,
            65_536,
        ),
    ]
}
