// Lines, keys and values: where a sheet ends in refusal 2, 3 or 4, and where it does not.
use yukhtsami::Refusal::{ForeignByte, LineOutOfPlace, UnreadableTerm};

use super::{Example, answered, refused};

pub fn examples() -> Vec<Example> {
    let mut list = keys();
    list.extend(places());
    list.extend(members());
    list.extend(fuels());
    list.extend(bytes());
    list.extend(terms());
    list
}

fn keys() -> Vec<Example> {
    vec![
        refused(
            "value-with-equals",
            "kind=equal|left=a=b|right=a|",
            UnreadableTerm,
        ),
        refused("blank-after-kind", "kind=unify |fuel=1|", LineOutOfPlace),
        refused("blank-before-kind", " kind=unify|fuel=1|", LineOutOfPlace),
        refused("blank-before-equals", "kind =unify|fuel=1|", LineOutOfPlace),
        refused("unknown-kind", "kind=Unify|fuel=1|", LineOutOfPlace),
        refused("kind-without-value", "kind=|fuel=1|", LineOutOfPlace),
        refused(
            "variants-is-no-kind",
            "kind=variants|term=a|",
            LineOutOfPlace,
        ),
        answered(
            "blanks-in-value",
            "kind=equal|left= a |right=a",
            "equal=yes",
        ),
        refused("empty-left", "kind=equal|left=|right=a|", UnreadableTerm),
        refused("empty-term", "kind=reduce|term=|", UnreadableTerm),
        refused("blank-term", "kind=reduce|term=   |", UnreadableTerm),
        refused("capital-key", "kind=reduce|Term=a|", LineOutOfPlace),
        refused("longer-key", "kind=reduce|terms=a|", LineOutOfPlace),
    ]
}

fn places() -> Vec<Example> {
    vec![
        refused("empty-sheet", "", LineOutOfPlace),
        refused("only-byte-10", "|", LineOutOfPlace),
        refused(
            "no-last-byte-10",
            "kind=equal|left=a|right=a",
            LineOutOfPlace,
        ),
        refused("only-kind", "kind=equal|", LineOutOfPlace),
        refused("missing-right", "kind=equal|left=a|", LineOutOfPlace),
        refused(
            "missing-right-of-pair",
            "kind=unify|fuel=2|left=a|",
            LineOutOfPlace,
        ),
        refused(
            "right-before-left",
            "kind=equal|right=a|left=a|",
            LineOutOfPlace,
        ),
        refused(
            "empty-line-between",
            "kind=equal||left=a|right=a|",
            LineOutOfPlace,
        ),
        refused(
            "empty-line-after",
            "kind=equal|left=a|right=a||",
            LineOutOfPlace,
        ),
        refused(
            "line-without-equals",
            "kind=equal|left=a|right=a|left|",
            LineOutOfPlace,
        ),
        refused(
            "line-after-the-last",
            "kind=reduce|term=a|term=a|",
            LineOutOfPlace,
        ),
        refused(
            "fuel-in-cover",
            "kind=cover|fuel=1|left=a|right=a|",
            LineOutOfPlace,
        ),
        refused(
            "no-fuel-in-match",
            "kind=match|left=a|right=a|",
            LineOutOfPlace,
        ),
        refused(
            "member-in-unify",
            "kind=unify|fuel=1|member=a|",
            LineOutOfPlace,
        ),
        refused(
            "pair-after-member",
            "kind=cover|member=a|left=a|right=a|",
            LineOutOfPlace,
        ),
        refused(
            "pairs-in-sound",
            "kind=sound|term=a|left=a|right=a|member=a|",
            LineOutOfPlace,
        ),
        refused(
            "three-before-four",
            "kind=equal|left=(|right=a|right=a|",
            LineOutOfPlace,
        ),
    ]
}

fn members() -> Vec<Example> {
    vec![
        answered(
            "cover-without-members",
            "kind=cover|left=x0:Msg|right=a",
            "covered=no",
        ),
        answered("cover-of-nothing", "kind=cover", "covered=no"),
        answered("cover-of-no-pairs", "kind=cover|member=", "covered=yes"),
        answered(
            "complete-without-members",
            "kind=complete|term=c(0)",
            "complete=no",
        ),
        refused("sound-without-member", "kind=sound|term=a|", LineOutOfPlace),
        refused(
            "sound-with-two-members",
            "kind=sound|term=a|member=a|member=a|",
            LineOutOfPlace,
        ),
        refused(
            "key-before-member",
            "kind=cover|left=a|right=a|key=x|value=a|",
            LineOutOfPlace,
        ),
        refused(
            "key-without-value",
            "kind=cover|member=|key=x0:Msg|",
            LineOutOfPlace,
        ),
        refused(
            "value-without-key",
            "kind=cover|member=|value=a|",
            LineOutOfPlace,
        ),
        refused(
            "key-twice",
            "kind=cover|member=|key=x|value=a|key=x|value=a|",
            LineOutOfPlace,
        ),
        refused(
            "key-twice-apart",
            "kind=sound|term=a|member=a|key=x|value=a|key=y|value=a|key=x|value=b|",
            LineOutOfPlace,
        ),
        refused(
            "key-twice-in-second",
            "kind=complete|term=a|member=a|member=a|key=|value=a|key=|value=a|",
            LineOutOfPlace,
        ),
        answered(
            "key-in-two-members",
            "kind=cover|left=x0:Msg|right=a|member=|key=x0:Msg|value=b|member=|key=x0:Msg|value=a",
            "covered=yes",
        ),
        answered(
            "keys-differ-by-blank",
            "kind=cover|member=|key=x|value=a|key=x |value=a",
            "covered=yes",
        ),
        answered(
            "empty-key",
            "kind=sound|term=a|member=a|key=|value=a",
            "sound=yes",
        ),
        answered(
            "key-with-equals",
            "kind=sound|term=a|member=a|key=a=b|value=a",
            "sound=yes",
        ),
        answered(
            "empty-member-of-sound",
            "kind=sound|term=a|member=",
            "sound=none",
        ),
        answered(
            "empty-member-of-complete",
            "kind=complete|term=a|member=",
            "complete=none",
        ),
        answered(
            "unreadable-member",
            "kind=sound|term=a|member=g(",
            "sound=none",
        ),
        answered(
            "unreadable-value",
            "kind=sound|term=a|member=a|key=zzz|value=g(",
            "sound=none",
        ),
        answered(
            "unreadable-in-complete",
            "kind=complete|term=a|member=a|key=zzz|value=",
            "complete=none",
        ),
        refused(
            "four-before-members",
            "kind=sound|term=g(|member=g(|",
            UnreadableTerm,
        ),
    ]
}

fn fuels() -> Vec<Example> {
    vec![
        refused("fuel-empty", "kind=unify|fuel=|", LineOutOfPlace),
        refused("fuel-plus", "kind=unify|fuel=+1|", LineOutOfPlace),
        refused("fuel-minus", "kind=match|fuel=-1|", LineOutOfPlace),
        refused("fuel-blank", "kind=unify|fuel= 1|", LineOutOfPlace),
        refused("fuel-blank-after", "kind=unify|fuel=1 |", LineOutOfPlace),
        refused("fuel-two-zeros", "kind=unify|fuel=00|", LineOutOfPlace),
        refused("fuel-leading-zero", "kind=match|fuel=01|", LineOutOfPlace),
        refused("fuel-too-large", "kind=unify|fuel=65537|", LineOutOfPlace),
        refused(
            "fuel-over-64-bits",
            "kind=unify|fuel=18446744073709551617|",
            LineOutOfPlace,
        ),
        refused("fuel-hexadecimal", "kind=unify|fuel=0x1|", LineOutOfPlace),
        answered(
            "fuel-largest",
            "kind=unify|fuel=65536",
            "verdict=solved|spent=0",
        ),
        answered(
            "fuel-zero",
            "kind=unify|fuel=0",
            "verdict=unsupported|spent=0",
        ),
        answered(
            "fuel-zero-match",
            "kind=match|fuel=0|left=a|right=b",
            "verdict=unsupported|spent=0",
        ),
        answered(
            "fuel-one-match",
            "kind=match|fuel=1",
            "verdict=solved|spent=0",
        ),
    ]
}

fn bytes() -> Vec<Example> {
    vec![
        refused("byte-9", "kind=equal|left=a\t|right=a|", ForeignByte),
        refused("byte-13", "kind=equal\r|left=a|right=a|", ForeignByte),
        refused("byte-31", "\u{1f}", ForeignByte),
        refused("byte-127", "kind=equal|left=a|right=a|\u{7f}", ForeignByte),
        refused(
            "two-byte-character",
            "kind=reduce|term=\u{e9}|",
            ForeignByte,
        ),
        refused("byte-126", "kind=reduce|term=~|", UnreadableTerm),
        refused("two-before-three", "no sheet\u{7f}", ForeignByte),
    ]
}

fn terms() -> Vec<Example> {
    let unreadable =
        |label, term: &str| refused(label, &format!("kind=reduce|term={term}|"), UnreadableTerm);
    let readable = |label, term: &str, written: &str| {
        answered(
            label,
            &format!("kind=reduce|term={term}"),
            &format!("normal={written}"),
        )
    };
    vec![
        unreadable("atom-around-letter", "p(a)"),
        unreadable("atom-around-two", "c(0,1)"),
        unreadable("atom-around-atom", "t(t(0))"),
        unreadable("atom-around-variable", "n(x0:Msg)"),
        unreadable("sum-of-one", "tamtplus(t(0))"),
        unreadable("empty-list", "g()"),
        unreadable("open-list", "g(a"),
        unreadable("closed-twice", "g(a))"),
        unreadable("two-terms", "a b"),
        unreadable("number-and-name", "12ab"),
        unreadable("comma-first", "g(,a)"),
        unreadable("bracket-first", "(a)"),
        unreadable("list-after-atom", "c(1)(2)"),
        unreadable("underscore", "a_b"),
        unreadable("colon-alone", "x0:"),
        unreadable("digit-after-colon", "x0:1"),
        unreadable("no-index", "x:Msg"),
        unreadable("two-colons", "x0:Msg:Pub"),
        unreadable("sigil-alone", "#"),
        readable("blanks-in-atom", " p ( 0 ) ", "p(0)"),
        readable(
            "blanks-in-sum",
            "tamtplus( t(0) ,t(1), t(2) )",
            "tamtplus(t(0),tamtplus(t(1),t(2)))",
        ),
        readable("digits", "7", "7"),
        readable("digits-with-list", "7(a,x0:Foo)", "7(a,x0:Foo)"),
        readable("letter-alone", "p", "p"),
        readable("name-of-digits", "x12ab", "x12ab"),
        readable("leading-zeros", "g(t(007),x007:Msg)", "g(t(007),x007:Msg)"),
        readable("sigils", "g(#1:Msg,%2:Pub)", "g(#1:Msg,%2:Pub)"),
        readable("colon-named-application", "x1:Msg(a)", "x1:Msg(a)"),
        readable("leaf-sum", "tamtplus", "tamtplus"),
        readable("sort-with-digits", "x1:Msg2", "x1:Msg2"),
        refused(
            "second-pair-unreadable",
            "kind=unify|fuel=9|left=a|right=b|left=a|right=(|",
            UnreadableTerm,
        ),
        refused(
            "right-unreadable-in-cover",
            "kind=cover|left=a|right=f()|member=|",
            UnreadableTerm,
        ),
    ]
}
