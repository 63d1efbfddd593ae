// Equality up to order and grouping of sums, and the claims of `cover`.
use yukhtsami::Refusal::UnreadableTerm;

use super::{Example, answered, refused};

pub fn examples() -> Vec<Example> {
    let mut list = equal();
    list.extend(cover());
    list
}

fn equal() -> Vec<Example> {
    let equal = |label, left: &str, right: &str, word: &str| {
        answered(
            label,
            &format!("kind=equal|left={left}|right={right}"),
            &format!("equal={word}"),
        )
    };
    vec![
        equal("order", "tamtplus(t(0),t(1))", "tamtplus(t(1),t(0))", "yes"),
        equal(
            "grouping",
            "tamtplus(tamtplus(a,b),c)",
            "tamtplus(c,b,a)",
            "yes",
        ),
        equal("order-elsewhere", "g(a,b)", "g(b,a)", "no"),
        equal(
            "deep-order",
            "g(h(tamtplus(a,b)))",
            "g(h(tamtplus(b,a)))",
            "yes",
        ),
        equal("summand-twice", "tamtplus(a,a,b)", "tamtplus(a,b,b)", "no"),
        equal(
            "sum-of-one-inside",
            "tamtplus(tamtplus(a),b)",
            "tamtplus(a,b)",
            "yes",
        ),
        equal(
            "leaf-sum-is-a-summand",
            "tamtplus(tamtplus,a)",
            "tamtplus(a,tamtplus)",
            "yes",
        ),
        equal(
            "leaf-sum-is-no-unit",
            "tamtplus(tamtplus,a,b)",
            "tamtplus(a,b)",
            "no",
        ),
        equal("loose-atom", "p(a,b)", "p(a,b)", "yes"),
        equal("bare-digits", "7", "7", "yes"),
        equal("zeros-count", "t(1)", "t(01)", "no"),
        equal("variables-by-text", "x0:Msg", "x0:Pub", "no"),
        equal("loose-nested-atom", "t(t(0))", "t( t(0) )", "yes"),
        refused(
            "loose-empty-list",
            "kind=equal|left=a|right=f()|",
            UnreadableTerm,
        ),
        refused(
            "loose-two-terms",
            "kind=equal|left=a b|right=a|",
            UnreadableTerm,
        ),
    ]
}

fn cover() -> Vec<Example> {
    let cover = |label, lines: &str, word: &str| {
        answered(
            label,
            &format!("kind=cover|left=x0:Msg|right=h(x1:Pub)|{lines}"),
            &format!("covered={word}"),
        )
    };
    vec![
        cover("cover-identity", "member=", "yes"),
        cover(
            "cover-general",
            "member=|key=x0:Msg|value=h(#0:Pub)|key=x1:Pub|value=#0:Pub",
            "yes",
        ),
        cover(
            "cover-special",
            "member=|key=x0:Msg|value=h(p(0))|key=x1:Pub|value=p(0)",
            "no",
        ),
        cover(
            "cover-second",
            "member=|key=x0:Msg|value=a|member=|key=x0:Msg|value=h(%7:Msg)",
            "yes",
        ),
        cover(
            "cover-unreadable-reached",
            "member=|key=x1:Pub|value=g(",
            "yes",
        ),
        cover(
            "cover-unreadable-elsewhere",
            "member=|key=x9:Msg|value=g(|key=x0:Msg|value=a",
            "no",
        ),
        cover(
            "cover-unreadable-after-failure",
            "member=|key=x0:Msg|value=a|key=x1:Pub|value=(",
            "yes",
        ),
        cover("cover-member-ignored", "member=)(|key=x0:Msg|value=a", "no"),
        cover(
            "cover-unsupported-covers",
            "member=|key=x0:Msg|value=h(tamtplus(#0:TamNat,#1:TamNat))",
            "no",
        ),
        answered(
            "cover-failed",
            "kind=cover|left=a|right=b|member=",
            "covered=none",
        ),
        answered(
            "cover-unsupported",
            "kind=cover|left=x0:Foo|right=b|member=|key=x0:Foo|value=b",
            "covered=none",
        ),
        answered(
            "cover-match-unsupported",
            "kind=cover|left=x0:TamNat|right=tamtplus(t(0),t(1))|member=|key=x0:TamNat|value=tamtplus(#0:TamNat,#1:TamNat)",
            "covered=yes",
        ),
        answered(
            "cover-unknown-sort",
            "kind=cover|left=x0:Foo|right=x0:Foo|member=",
            "covered=no",
        ),
    ]
}
