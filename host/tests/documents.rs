// The example sheets and the worked sheets of the documents: their answers by the linked library
// and by the reference, the pairs shown as taken, and solved answers checked as by hand.
use host::{
    deep,
    documents::{self, Worked},
    hand,
    kinds::{self, KINDS, Kind},
    lent::Asked,
    linked::Comparison,
    notice,
    reference::{self, Reply},
    sheet,
};
use yukhtsami::{Call, Refusal};

/// The documents with worked sheets, and how many each has at the least.
const DOCUMENTS: [(&str, usize); 6] = [
    ("README.md", 1),
    ("docs/SHEET.md", 74),
    ("docs/READING-AN-ANSWER.md", 8),
    ("docs/DECISIONS.md", 11),
    ("docs/DIFFERENCES.md", 46),
    ("examples/README.md", 1),
];
const TABLES: usize = 9;
const ROOM: usize = 1 << 20;

fn needed(bytes: &[u8]) -> u64 {
    sheet::read(bytes).map_or(0, |read| sheet::words_needed(bytes, &read))
}

fn check(list: &[Worked]) {
    notice::absent("the model answered alone");
    let library = !notice::library_absent("the reference alone answered the documents' sheets");
    deep::run(|| {
        let mut comparison = Comparison::default();
        for worked in list {
            let words = worked.words.unwrap_or(needed(&worked.sheet));
            let room = worked.room.unwrap_or(ROOM);
            let reply = reference::call(worked.call, &worked.sheet, words, room);
            assert_eq!(told(&reply), told(&worked.reply), "{}", worked.place);
            if library {
                let asked = Asked::new(worked.call, &worked.sheet, words, room);
                comparison.add(&worked.place, asked, worked.reply.clone());
            }
        }
        let smallest = comparison.smallest.as_ref().map(ToString::to_string);
        assert_eq!(smallest, None);
        assert_eq!(comparison.calls, if library { list.len() } else { 0 });
    });
}

fn told(reply: &Reply) -> String {
    match reply {
        Reply::Refused(refusal) => format!("refusal {}", refusal.number()),
        Reply::Answer(answer) => String::from_utf8_lossy(answer).into_owned(),
    }
}

fn of_documents() -> Vec<Worked> {
    let read = |(name, _): &(&str, usize)| documents::read(name).unwrap();
    DOCUMENTS.iter().flat_map(read).collect()
}

fn kinds(list: &[Worked]) -> Vec<&'static Kind> {
    let asked = |kind: &&Kind| {
        let line = format!("kind={}\n", kind.name);
        list.iter()
            .any(|worked| worked.sheet.starts_with(line.as_bytes()))
    };
    KINDS.iter().filter(asked).collect()
}

#[test]
fn every_example_has_its_answer() {
    let list = documents::examples().unwrap();
    for (call, least) in [(Call::Answer, 12), (Call::Page, 1)] {
        let of_call = list.iter().filter(|worked| worked.call == call);
        let names: Vec<_> = of_call.map(|worked| worked.place.clone()).collect();
        assert!(names.len() >= least, "{call:?}: {} examples", names.len());
        assert_eq!(names, documents::example_names(documents::ending(call)));
    }
    assert_eq!(kinds(&list), kinds::all());
    for verdict in ["solved", "failed", "unsupported"] {
        let told = format!("verdict={verdict}\n");
        let gives = |worked: &Worked| matches!(&worked.reply, Reply::Answer(answer) if answer.starts_with(told.as_bytes()));
        assert!(list.iter().any(gives), "no example is {verdict}");
    }
    check(&list);
}

#[test]
fn every_example_is_told_of() {
    let page = std::fs::read_to_string(documents::file("examples/README.md")).unwrap();
    for name in documents::example_names(".sheet") {
        let row = format!("| `{name}` |");
        assert_eq!(page.matches(&row).count(), 1, "{name}");
    }
}

#[test]
fn every_worked_sheet_has_the_answer_that_is_documented() {
    let mut list = Vec::new();
    for (name, least) in DOCUMENTS {
        let found = documents::read(name).unwrap();
        assert!(found.len() >= least, "{name}: {} sheets", found.len());
        list.extend(found);
    }
    assert_eq!(kinds(&list), kinds::all());
    check(&list);
}

#[test]
#[should_panic(expected = "text:1")]
fn a_wrong_answer_in_a_document_is_noticed() {
    check(&documents::worked("text", "`kind=unify/fuel=1/` is `verdict=solved/spent=1/`").unwrap());
}

#[test]
fn the_examples_shown_in_documents_are_as_filed() {
    for (document, name) in [
        ("docs/READING-AN-ANSWER.md", "counter-step"),
        ("examples/README.md", "counter-replay"),
    ] {
        let filed = std::fs::read(documents::file(&format!("examples/{name}.sheet"))).unwrap();
        let shown = documents::read(document).unwrap();
        assert!(shown.iter().any(|worked| worked.sheet == filed), "{name}");
    }
}

#[test]
fn the_pairs_shown_are_the_pairs_taken() {
    let mut tables = 0;
    for worked in of_documents() {
        if let Some(shown) = worked.taken {
            assert_eq!(Some(shown), hand::taken(&worked.sheet), "{}", worked.place);
            tables += 1;
        }
    }
    assert!(tables >= TABLES, "{tables} tables of pairs taken");
}

// Asks the linked library, or the reference where that is absent.
fn asked(sheet: &str) -> Reply {
    let words = needed(sheet.as_bytes());
    if !yukhtsami::present() {
        return reference::call(Call::Answer, sheet.as_bytes(), words, ROOM);
    }
    let (mut work, mut output) = (vec![1; words as usize], vec![0; 64]);
    match yukhtsami::answer(sheet.as_bytes(), &mut work, &mut output) {
        Ok(written) => Reply::Answer(output[..written].to_vec()),
        Err(refusal) => Reply::Refused(refusal),
    }
}

#[test]
fn solved_answers_pass_the_check_by_hand() {
    notice::library_absent("the reference compared the sides");
    let (mut unified, mut matched, mut untidy) = (0, 0, 0);
    let examples = documents::examples().unwrap();
    for worked in examples.into_iter().chain(of_documents()) {
        let Reply::Answer(answer) = &worked.reply else {
            continue;
        };
        let (Some((unify, _, pairs)), Some(bindings)) =
            (hand::pairs(&worked.sheet), hand::bindings(answer))
        else {
            continue;
        };
        if !hand::tidy(&pairs) {
            untidy += 1;
            continue;
        }
        assert!(hand::well_sorted(&bindings), "{}", worked.place);
        assert!(!unify || hand::apart(&bindings), "{}", worked.place);
        for question in hand::questions(unify, &pairs, &bindings) {
            let said = told(&asked(&question));
            assert_eq!(said, "equal=yes\n", "{}: {question}", worked.place);
        }
        *(if unify { &mut unified } else { &mut matched }) += 1;
    }
    assert!(
        unified >= 8 && matched >= 2 && untidy >= 1,
        "{unified} {matched} {untidy}"
    );
}

#[test]
fn a_document_that_breaks_the_convention_is_an_error() {
    let read = |text: &str| documents::worked("text", text);
    let sheet = "    kind=reduce\n    term=a\n";
    let answer = "    normal=a\n";
    let found = read(&format!("{sheet}\nis\n\n{answer}")).unwrap();
    assert_eq!(found.len(), 1);
    assert_eq!(found[0].sheet, b"kind=reduce\nterm=a\n");
    assert_eq!(told(&found[0].reply), "normal=a\n");
    assert!(read(sheet).is_err());
    assert!(read(answer).is_err());
    assert!(read(&format!("{sheet}\nthen\n\n{sheet}\n{answer}")).is_err());
    assert!(read("kind=reduce\nterm=a\n").is_err());
    assert!(read("`kind=reduce/term=a/` gives nothing").is_err());
    assert!(read("`kind=reduce/term=a/` and `kind=reduce/term=b/`: `normal=a/`").is_err());
    let short = read("| `kind=reduce/term=a/` | `refusal 12 with 8 bytes` |").unwrap();
    assert_eq!(
        (short[0].room, &short[0].reply),
        (Some(8), &Reply::Refused(Refusal::ShortOutput))
    );
    assert!(read("`kind=reduce/term=a/`: `refusal 12 with 8 words of it`").is_err());
    let page = read("`kind=reduce/term=a/`: `page refusal 12 with 8 bytes`").unwrap();
    assert_eq!((page[0].call, page[0].room), (Call::Page, Some(8)));
    let shown = "\non paper\n\n    PAGE 0001\n    normal   a\n";
    let page = read(&format!("{sheet}{shown}")).unwrap();
    let both = read(&format!("{sheet}\nis\n\n{answer}{shown}")).unwrap();
    assert_eq!((both.len(), &both[1].reply), (2, &page[0].reply));
    assert_eq!(both[0].sheet, both[1].sheet);
    assert!(read(shown).is_err());
    let blank = " ".repeat(72) + "\n";
    let lines = format!("{:72}\n{:72}\n", "PAGE 0001", "normal   a") + &blank.repeat(48);
    assert_eq!((page[0].call, told(&page[0].reply)), (Call::Page, lines));
    let wrong = "kind=unify\nfuel=1\n";
    assert_eq!(told(&asked(wrong)), "verdict=solved\nspent=0\n");
}
