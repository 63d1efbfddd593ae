// Where refused sheets are at fault: places written by hand, and the walks against the reading of
// sheets and terms.
use host::{
    deep,
    generate::{self, Size},
    model,
    place::{self, Place, lines, terms},
    rng::Rng,
    sheet::{self, Sheet},
    store,
};
use yukhtsami::Refusal::{self, ForeignByte, LineOutOfPlace, TooLong, UnreadableTerm};

// `|` ends a line.
fn bytes(text: &str) -> Vec<u8> {
    text.replace('|', "\n").into_bytes()
}

fn told(place: Option<Place>) -> String {
    place.map_or("no place".to_owned(), |place| place.to_string())
}

#[test]
fn the_line_out_of_place_is_found() {
    let end = "the end of the sheet";
    let fuel = "is no decimal from 0 to 65536 without leading zero";
    for (text, said) in [
        ("", "line 1, column 1: the sheet is empty".to_owned()),
        (
            "|",
            "line 1, column 1: expected `kind`, found an empty line".to_owned(),
        ),
        (
            "foo=1|",
            "line 1, column 1: expected `kind`, found `foo`".to_owned(),
        ),
        (
            "kind=sum|",
            "line 1, column 6: `sum` is no kind of sheet".to_owned(),
        ),
        (
            "kind=equal|",
            format!("line 2, column 1: expected `left`, found {end}"),
        ),
        (
            "kind=equal|left=a|left=a|",
            "line 3, column 1: expected `right`, found `left`".to_owned(),
        ),
        (
            "kind=equal|left=a|right=a",
            "line 3, column 8: the last line has no byte 10 at its end".to_owned(),
        ),
        (
            "kind=equal|left=a|right=a||",
            format!("line 4, column 1: expected {end}, found an empty line"),
        ),
        (
            "kind=reduce|term|",
            "line 2, column 1: expected `term`, found `term`, a line without `=`".to_owned(),
        ),
        ("kind=unify|fuel=|", format!("line 2, column 6: `` {fuel}")),
        (
            "kind=match|fuel=007|",
            format!("line 2, column 6: `007` {fuel}"),
        ),
        (
            "kind=unify|fuel=65537|",
            format!("line 2, column 6: `65537` {fuel}"),
        ),
        (
            "kind=unify|fuel=1|left=a|right=a|term=a|",
            format!("line 5, column 1: expected `left` or {end}, found `term`"),
        ),
        (
            "kind=cover|left=a|right=a|key=x|",
            format!("line 4, column 1: expected `left`, `member` or {end}, found `key`"),
        ),
        (
            "kind=sound|term=a|",
            format!("line 3, column 1: expected `member`, found {end}"),
        ),
        (
            "kind=sound|term=a|member=a|member=a|",
            format!("line 4, column 1: expected `key` or {end}, found `member`"),
        ),
        (
            "kind=complete|term=a|left=a|",
            format!("line 3, column 1: expected `member` or {end}, found `left`"),
        ),
        (
            "kind=complete|term=a|member=a|left=a|",
            format!("line 4, column 1: expected `key`, `member` or {end}, found `left`"),
        ),
        (
            "kind=cover|member=|key=x|member=|",
            "line 4, column 1: expected `value`, found `member`".to_owned(),
        ),
        (
            "kind=cover|member=|key=x|value=|key=y|value=|key=x|value=|",
            "line 7, column 5: the member has the key `x` already, in line 3".to_owned(),
        ),
    ] {
        assert_eq!(told(lines::out_of_place(&bytes(text))), said, "{text}");
    }
}

#[test]
fn a_sheet_in_place_has_no_place() {
    for text in [
        "kind=equal|left=|right=|",
        "kind=unify|fuel=0|",
        "kind=cover|member=|key=x|value=|member=|key=x|value=|",
        "kind=sound|term=a|member=|",
        "kind=complete|term=a|",
    ] {
        assert_eq!(lines::out_of_place(&bytes(text)), None, "{text}");
    }
}

#[test]
fn long_pieces_are_cut() {
    let text = format!("{}=|", "a".repeat(60_000));
    let said = told(lines::out_of_place(&bytes(&text)));
    assert!(said.len() < 100 && said.ends_with("aaaa..`"), "{said}");
}

#[test]
fn the_place_in_a_term_is_found() {
    for (term, said) in [
        (
            "",
            "line 2, column 6: expected a term, found the end of the line",
        ),
        (
            "  ",
            "line 2, column 8: expected a term, found the end of the line",
        ),
        (
            "a=b",
            "line 2, column 7: expected the end of the line, found `=`",
        ),
        (
            "g(a b)",
            "line 2, column 10: expected `,` or `)`, found `b`",
        ),
        (
            "g(a,h(",
            "line 2, column 12: expected a term, found the end of the line",
        ),
        (
            "g(a",
            "line 2, column 9: expected `,` or `)`, found the end of the line",
        ),
        ("g()", "line 2, column 8: expected a term, found `)`"),
        ("g(a,)", "line 2, column 10: expected a term, found `)`"),
        (
            "g(a))",
            "line 2, column 10: expected the end of the line, found `)`",
        ),
        ("(a)", "line 2, column 6: expected a term, found `(`"),
        ("g(#1:,a)", "line 2, column 8: expected a term, found `#`"),
        (
            "x0:",
            "line 2, column 8: expected the end of the line, found `:`",
        ),
        (
            "g(p(0),p(a))",
            "line 2, column 13: `p` takes one run of digits",
        ),
        ("f(1,2)", "line 2, column 6: `f` takes one run of digits"),
        ("n(1(2))", "line 2, column 6: `n` takes one run of digits"),
        ("h( tamtplus(a) )", "line 2, column 9: a sum of one"),
    ] {
        let sheet = bytes(&format!("kind=reduce|term={term}|"));
        assert_eq!(told(terms::unreadable(&sheet)), said, "{term}");
    }
}

#[test]
fn the_first_unreadable_line_is_told() {
    let sheet = bytes("kind=unify|fuel=1|left=a|right=b|left=p(0)|right=(|");
    let said = "line 6, column 7: expected a term, found `(`";
    assert_eq!(told(terms::unreadable(&sheet)), said);
    let sheet = bytes("kind=equal|left=p(a)|right=tamtplus(a)|");
    assert_eq!(terms::unreadable(&sheet), None);
}

#[test]
fn nodes_are_counted_as_terms_have_them() {
    let wide = |leaf: &str, count| format!("g({})", vec![leaf; count].join(","));
    let sum = |count| format!("tamtplus({})", vec!["t(1)"; count].join(","));
    for (good, bad, nodes) in [
        (wide("a", 4_095), wide("a", 4_096), 4_097),
        (wide("c(0)", 4_095), wide("c(0)", 4_096), 4_097),
        (sum(2_048), sum(2_049), 4_097),
    ] {
        let sheet = |term: &str| bytes(&format!("kind=reduce|term={term}|"));
        assert_eq!(terms::unreadable(&sheet(&good)), None);
        let said = format!("line 2: the term has {nodes} nodes, where 4096 are the most");
        assert_eq!(told(terms::unreadable(&sheet(&bad))), said);
    }
}

#[test]
fn the_first_foreign_byte_is_told() {
    for (text, said) in [
        (
            "kind=equal\r\n",
            "line 1, column 11: byte 13 (a carriage return), at offset 10",
        ),
        ("\0", "line 1, column 1: byte 0 (NUL), at offset 0"),
        (
            "a\nb\n\n\u{7f}\t",
            "line 4, column 1: byte 127, at offset 5",
        ),
        (
            "kind=reduce\nterm=\u{e9}\n",
            "line 2, column 6: byte 195 (no ASCII), at offset 17",
        ),
    ] {
        assert_eq!(told(place::foreign(text.as_bytes())), said);
    }
    assert_eq!(place::foreign(b"kind=equal\n~ "), None);
}

// Whether each term of a sheet reads.
fn readable(sheet: &Sheet) -> bool {
    let read = if sheet.kind.loose {
        model::read_loosely
    } else {
        model::read
    };
    let reads = |text: &str| read(text).is_some();
    let mut pairs = sheet.pairs.iter();
    sheet.terms.iter().all(|text| reads(text)) && pairs.all(|(l, r)| reads(l) && reads(r))
}

// The walks find a place exactly where the sheet is at fault. What the sheet is refused with.
fn agree(bytes: &[u8]) -> Option<Refusal> {
    let text = String::from_utf8_lossy(bytes);
    let refusal = match sheet::read(bytes) {
        Err(refusal) => Some(refusal),
        Ok(sheet) => {
            let needed = sheet::words_needed(bytes, &sheet);
            assert_eq!(yukhtsami::words_needed(bytes), needed, "{text}");
            (!readable(&sheet)).then_some(UnreadableTerm)
        }
    };
    let is = |other| refusal == Some(other);
    let (long, foreign) = (is(TooLong), is(ForeignByte));
    assert_eq!(place::long(bytes, None).is_some(), long, "{text}");
    if !long {
        assert_eq!(place::foreign(bytes).is_some(), foreign, "{text}");
    }
    if !(long || foreign) {
        let (line, term) = (lines::out_of_place(bytes), terms::unreadable(bytes));
        assert_eq!(line.is_some(), is(LineOutOfPlace), "{text}");
        assert_eq!(term.is_some(), is(UnreadableTerm), "{text}");
    }
    refusal
}

#[test]
fn places_are_found_exactly_where_sheets_are_refused() {
    let found = deep::run(|| {
        let mut rng = Rng::new(31);
        let generated = (0..40_000).map(|_| agree(&generate::sheet(&mut rng, Size::Any)));
        let mut found: Vec<_> = generated.collect();
        let stored = store::stored().unwrap();
        found.extend(stored.iter().map(|record| agree(&record.case.sheet)));
        found
    });
    let refusals = [TooLong, ForeignByte, LineOutOfPlace, UnreadableTerm].map(Some);
    for refusal in refusals.into_iter().chain([None]) {
        let count = found.iter().filter(|found| **found == refusal).count();
        assert!(count >= 10, "{refusal:?}: {count}");
    }
}

#[test]
fn every_cut_of_a_sheet_has_its_place() {
    let whole = bytes("kind=complete|term=tamXCfst(x0:Msg)|member=a|key=x0:Msg|value=p( 0)|");
    for end in 0..whole.len() {
        agree(&whole[..end]);
    }
    assert_eq!(agree(&whole), None);
}
