// Reduction, and the claims of `sound` and `complete`.
use super::{Example, answered};

pub fn examples() -> Vec<Example> {
    let mut list = reduce();
    list.extend(sound());
    list.extend(complete());
    list
}

fn reduce() -> Vec<Example> {
    let reduce = |label, term: &str, normal: &str| {
        answered(
            label,
            &format!("kind=reduce|term={term}"),
            &format!("normal={normal}"),
        )
    };
    let unchanged = |label, term: &str| {
        answered(
            label,
            &format!("kind=reduce|term={term}"),
            &format!("normal={term}"),
        )
    };
    vec![
        reduce("second", "tamXCsnd(tamXCpair(a,b))", "b"),
        reduce("flip-a", "tamXCflip(tamXCroleA)", "tamXCroleB"),
        reduce(
            "flip-twice",
            "tamXCflip(tamXCflip(tamXCroleB))",
            "tamXCroleB",
        ),
        unchanged("flip-with-argument", "tamXCflip(tamXCroleA(a))"),
        unchanged("flip-of-two", "tamXCflip(tamXCroleA,tamXCroleA)"),
        unchanged("first-of-two", "tamXCfst(tamXCpair(a,b),c(0))"),
        unchanged("pair-of-three", "tamXCfst(tamXCpair(a,b,d))"),
        reduce("decrypt", "tamXCsdec(tamXCsenc(a,b),b)", "a"),
        reduce(
            "decrypt-other-order",
            "tamXCsdec(tamXCsenc(a,tamtplus(t(0),t(1))),tamtplus(t(1),t(0)))",
            "a",
        ),
        unchanged("decrypt-other-key", "tamXCsdec(tamXCsenc(a,b),d)"),
        unchanged("decrypt-no-message", "tamXCsdec(tamXCsenc(n(0),b),b)"),
        unchanged("decrypt-no-message-key", "tamXCsdec(tamXCsenc(a,nil),nil)"),
        reduce("encapsulation", "tamXCkdec(tamXCkem(a,tamXCpk(b)),b)", "a"),
        unchanged("encapsulation-other", "tamXCkdec(tamXCkem(a,tamXCpk(b)),d)"),
        unchanged("encapsulation-without-pk", "tamXCkdec(tamXCkem(a,b),b)"),
        reduce(
            "children-first",
            "tamXCfst(tamXCfst(tamXCpair(tamXCpair(a,b),d)))",
            "a",
        ),
        reduce(
            "one-root-rule",
            "tamXCsdec(tamXCfst(tamXCpair(tamXCsenc(a,b),d)),b)",
            "a",
        ),
        unchanged(
            "unknown-sort-is-no-message",
            "tamXCfst(tamXCpair(a,x0:Foo))",
        ),
        reduce("ill-summed", "tamXCfst(tamXCpair(a,tamXCtone(b)))", "a"),
        unchanged("tone-of-node", "tamXCfst(tamXCpair(a,tamXCtone(n(0))))"),
        unchanged("sum-of-messages", "tamXCfst(tamXCpair(a,tamtplus(b,t(0))))"),
        reduce(
            "leaf-sum-is-a-message",
            "tamXCfst(tamXCpair(a,tamtplus))",
            "a",
        ),
        reduce(
            "reduced-inside-list",
            "cons(tamXCfst(tamXCpair(a,b)),nil)",
            "cons(a,nil)",
        ),
    ]
}

fn sound() -> Vec<Example> {
    let sound = |label, lines: &str, word: &str| {
        answered(
            label,
            &format!("kind=sound|term=tamXCfst(x0:Msg)|{lines}"),
            &format!("sound={word}"),
        )
    };
    vec![
        sound("sound-stay", "member=tamXCfst(x0:Msg)", "yes"),
        sound(
            "sound-fires",
            "member=#0:Msg|key=x0:Msg|value=tamXCpair(#0:Msg,#1:Msg)",
            "yes",
        ),
        sound(
            "sound-not-normal",
            "member=tamXCfst(tamXCpair(a,b))|key=x0:Msg|value=tamXCpair(a,b)",
            "no",
        ),
        sound(
            "sound-other",
            "member=b|key=x0:Msg|value=tamXCpair(a,b)",
            "no",
        ),
        sound(
            "sound-ill-sorted-value",
            "member=tamXCfst(n(0))|key=x0:Msg|value=n(0)",
            "yes",
        ),
        sound(
            "sound-blanks",
            "member= a |key=x0:Msg|value= tamXCpair ( a , b ) ",
            "yes",
        ),
        answered(
            "sound-other-order",
            "kind=sound|term=tamtplus(x0:TamNat,t(0))|member=tamtplus(t(0),t(1))|key=x0:TamNat|value=t(1)",
            "sound=yes",
        ),
        answered(
            "sound-colon-named",
            "kind=sound|term=x0:Msg(a)|member=x0:Msg(a)|key=x0:Msg|value=b",
            "sound=yes",
        ),
    ]
}

fn complete() -> Vec<Example> {
    let complete = |label, lines: &str, word: &str| {
        answered(
            label,
            &format!("kind=complete|{lines}"),
            &format!("complete={word}"),
        )
    };
    let first = "term=tamXCfst(x0:Msg)|member=tamXCfst(x0:Msg)";
    vec![
        complete("complete-constant", "term=c(0)|member=c(0)", "yes"),
        complete(
            "complete-first",
            &format!("{first}|member=#0:Msg|key=x0:Msg|value=tamXCpair(#0:Msg,#1:Msg)"),
            "yes",
        ),
        complete("complete-without-firing", first, "no"),
        complete(
            "complete-fresh-name-over-arguments",
            &format!("{first}|member=x1:Msg(c(0))|key=x0:Msg|value=tamXCpair(x1:Msg(c(0)),x2:Msg)"),
            "yes",
        ),
        complete(
            "complete-too-special",
            &format!("{first}|member=a|key=x0:Msg|value=tamXCpair(a,#1:Msg)"),
            "no",
        ),
        complete(
            "complete-general-member",
            "term=tamXCfst(x0:Msg)|member=x5:Msg",
            "yes",
        ),
        complete(
            "complete-flip",
            "term=tamXCflip(x0:Msg)|member=tamXCflip(x0:Msg)|member=tamXCroleA|key=x0:Msg|value=tamXCroleB|member=tamXCroleB|key=x0:Msg|value=tamXCroleA",
            "yes",
        ),
        complete(
            "complete-redex-stays-out",
            "term=tamXCfst(tamXCpair(a,b))|member=a",
            "yes",
        ),
        complete(
            "complete-unsupported-before-no",
            "term=g(tamXCfst(x1:Msg),tamXCsdec(tamtplus(x0:Msg,t(0)),a),tamXCsdec(tamXCsenc(a,tamtplus(x2:TamNat,x3:TamNat)),tamtplus(x4:TamNat,x5:TamNat)))",
            "none",
        ),
        complete(
            "complete-leading-zero",
            "term=x00:Msg|member=x00:Msg",
            "none",
        ),
        complete("complete-sigil", "term=#0:Msg|member=#0:Msg", "none"),
        complete(
            "complete-index-below-2-63",
            "term=tamXCfst(x9223372036854775807:Msg)|member=x0:Msg",
            "yes",
        ),
        complete(
            "complete-index-2-63",
            "term=x9223372036854775808:Msg|member=x0:Msg",
            "none",
        ),
        complete(
            "complete-index-2-64-less-3",
            "term=tamXCfst(x18446744073709551613:Msg)|member=x0:Msg",
            "none",
        ),
        complete(
            "complete-index-2-64-less-1",
            "term=x18446744073709551615:Msg|member=x0:Msg",
            "none",
        ),
        complete(
            "complete-index-2-64",
            "term=x18446744073709551616:Msg|member=x0:Msg",
            "none",
        ),
        complete(
            "complete-high-name",
            "term=x9223372036854775808:Msg(a)|member=x9223372036854775808:Msg(a)",
            "yes",
        ),
        complete(
            "complete-high-index-in-member",
            "term=x0:Msg|member=x18446744073709551615:Msg",
            "yes",
        ),
        complete("complete-unknown-sort", "term=x0:Foo|member=x0:Foo", "no"),
    ]
}
