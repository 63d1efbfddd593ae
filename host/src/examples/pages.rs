// Answers laid out in pages (02, R-1): every kind, texts and pages that are just full, and the refusals.
use yukhtsami::Refusal::{
    ForeignByte, LineOutOfPlace, ShortOutput, ShortWorkArea, TooLong, TooManyPages, UnreadableTerm,
};

use super::{Example, lent, paged, unpaged};
use crate::generate;

pub fn examples() -> Vec<Example> {
    let mut list = kinds();
    list.extend(long_texts());
    list.extend(full_pages());
    list.extend(refusals());
    list
}

fn kinds() -> Vec<Example> {
    let p1 = "left=g(x0:Msg,x1:Pub)|right=g(tamXCpair(x1:Pub,c(0)),p(2))";
    vec![
        paged(
            "page-P1",
            &format!("kind=unify|fuel=4|{p1}"),
            "PAGE 0001|verdict  solved|spent    3|key      x0:Msg|value    tamXCpair(p(2),c(0))|\
             key      x1:Pub|value    p(2)",
        ),
        paged(
            "page-P2",
            &format!("kind=unify|fuel=3|{p1}"),
            "PAGE 0001|verdict  unsupported|spent    3",
        ),
        paged(
            "page-match",
            "kind=match|fuel=9|left=x0:Pub|right=x1:Msg",
            "PAGE 0001|verdict  failed|spent    1",
        ),
        paged(
            "page-equal",
            "kind=equal|left=tamtplus(a,b)|right=tamtplus(b,a)",
            "PAGE 0001|equal    yes",
        ),
        paged(
            "page-cover",
            "kind=cover|left=x0:Msg|right=c(0)",
            "PAGE 0001|covered  no",
        ),
        paged(
            "page-sound",
            "kind=sound|term=a|member=g(",
            "PAGE 0001|sound    none",
        ),
        paged(
            "page-complete",
            "kind=complete|term=tamXCfst(x0:Pub)|member=tamXCfst(x0:Pub)",
            "PAGE 0001|complete yes",
        ),
    ]
}

// A name of so many letters, reduced.
fn name(letters: usize) -> String {
    format!("kind=reduce|term={}", "a".repeat(letters))
}

fn long_texts() -> Vec<Example> {
    let full = "a".repeat(63);
    vec![
        paged(
            "text-62",
            &name(62),
            &format!("PAGE 0001|normal   {}", "a".repeat(62)),
        ),
        paged("text-63", &name(63), &format!("PAGE 0001|normal   {full}")),
        paged(
            "text-64",
            &name(64),
            &format!("PAGE 0001|normal   {full}|         a"),
        ),
        paged(
            "text-126",
            &name(126),
            &format!("PAGE 0001|normal   {full}|         {full}"),
        ),
        paged(
            "text-127",
            &name(127),
            &format!("PAGE 0001|normal   {full}|         {full}|         a"),
        ),
        // The second value begins on a line of its own, with its key.
        paged(
            "text-64-of-two",
            "kind=unify|fuel=9|left=g(x0:Msg,x1:Msg)|right=g(h(\
             aaaaaaaaaaaaaaaaaaaaaaaaaaaaaaaaaaaaaaaaaaaaaaaaaaaaaaaaaaaaa),b)",
            "PAGE 0001|verdict  solved|spent    3|key      x0:Msg|\
             value    h(aaaaaaaaaaaaaaaaaaaaaaaaaaaaaaaaaaaaaaaaaaaaaaaaaaaaaaaaaaaaa|\
             \x20        )|key      x1:Msg|value    b",
        ),
    ]
}

// Lines of a name's letters below the first.
fn more_lines(count: usize) -> String {
    format!("|         {}", "a".repeat(63)).repeat(count)
}

fn full_pages() -> Vec<Example> {
    let full = "a".repeat(63);
    let first = format!("PAGE 0001|normal   {full}{}", more_lines(48));
    let second = format!("{first}|PAGE 0002{}", more_lines(49));
    vec![
        paged("lines-49", &name(49 * 63), &first),
        paged(
            "lines-50",
            &name(49 * 63 + 1),
            &format!("{first}|PAGE 0002|         a"),
        ),
        paged("lines-98", &name(98 * 63), &second),
        paged(
            "lines-99",
            &name(98 * 63 + 1),
            &format!("{second}|PAGE 0003|         a"),
        ),
    ]
}

fn refusals() -> Vec<Example> {
    let empty = "kind=unify|fuel=1";
    let refused = |label, sheet: &str, refusal| unpaged(label, &format!("{sheet}|"), refusal);
    let solved = "PAGE 0001|verdict  solved|spent    0";
    let over = generate::of_lines(489_952).replace('\n', "|");
    let needed = yukhtsami::words_needed(over.replace('|', "\n").as_bytes());
    let many = |label| unpaged(label, &over, TooManyPages);
    vec![
        lent(paged("page-least", empty, solved), 1_048_864, 3_650),
        lent(
            refused("page-byte-less", empty, ShortOutput),
            1_048_864,
            3_649,
        ),
        lent(
            refused("page-word-less", empty, ShortWorkArea),
            1_048_863,
            3_649,
        ),
        lent(
            refused("second-page-byte-less", &name(49 * 63 + 1), ShortOutput),
            1_500_000,
            7_299,
        ),
        lent(
            refused("page-unreadable", "kind=reduce|term=(", UnreadableTerm),
            1_048_896,
            0,
        ),
        lent(many("too-many-pages"), needed, 0),
        lent(many("too-many-pages-large-output"), needed, 36_500_000),
        unpaged("page-foreign-byte", "kind=reduce|term=\t|", ForeignByte),
        unpaged("page-no-line", "", LineOutOfPlace),
        unpaged("page-too-long", &"a".repeat(65_537), TooLong),
    ]
}
