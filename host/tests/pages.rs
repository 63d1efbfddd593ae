// Answers laid out in pages: the host's layout, and the linked library's pages against it at every limit.
use host::{
    deep,
    generate::{self, Size},
    lent::{self, Asked},
    linked::Comparison,
    notice, page,
    reference::{self, Reply},
    rng::Rng,
    sheet, store,
};
use yukhtsami::{Call, MOST_PAGES, PAGE_BYTES, Refusal};

const MOST_LINES: usize = page::BELOW * MOST_PAGES;

fn needed(bytes: &[u8]) -> u64 {
    sheet::read(bytes).map_or(0, |read| sheet::words_needed(bytes, &read))
}

// A sheet whose answer has a text of so many letters.
fn name(letters: usize) -> String {
    format!("kind=reduce\nterm={}\n", "a".repeat(letters))
}

// A sheet whose answer has so many bindings.
fn bindings(count: usize) -> String {
    let list = |one: fn(usize) -> String| (0..count).map(one).collect::<Vec<_>>().join(",");
    let (left, right) = (list(|n| format!("x{n}:Msg")), list(|n| format!("c({n})")));
    format!("kind=unify\nfuel=999\nleft=g({left})\nright=g({right})\n")
}

// The pages of an answer with room enough.
fn pages(sheet: &str) -> Result<Vec<u8>, Refusal> {
    match deep::run(|| reference::call(Call::Page, sheet.as_bytes(), u64::MAX, usize::MAX)) {
        Reply::Answer(pages) => Ok(pages),
        Reply::Refused(refusal) => Err(refusal),
    }
}

#[test]
fn a_text_goes_on_below_after_63_characters() {
    for (letters, lines) in [(62, 1), (63, 1), (64, 2), (126, 2), (127, 3)] {
        let pages = String::from_utf8(pages(&name(letters)).unwrap()).unwrap();
        let shown: Vec<&str> = pages.lines().map(str::trim_end).collect();
        let written = shown.iter().filter(|line| !line.is_empty()).count();
        assert_eq!((shown.len(), written), (50, 1 + lines), "{letters}");
        assert!(pages.lines().all(|line| line.len() == 72));
        assert!(shown[1].starts_with("normal   a"));
        assert!(
            shown[2..=lines]
                .iter()
                .all(|line| line.starts_with("         a"))
        );
    }
}

#[test]
fn a_page_has_49_lines_below_its_number() {
    for (lines, count) in [(49, 1), (50, 2), (98, 2), (99, 3)] {
        let pages = String::from_utf8(pages(&name(63 * lines)).unwrap()).unwrap();
        assert_eq!(pages.len(), PAGE_BYTES * count, "{lines}");
        let first = pages.lines().step_by(50).map(str::trim_end);
        let numbers: Vec<String> = (1..=count).map(|n| format!("PAGE {n:04}")).collect();
        assert!(first.eq(numbers), "{lines}");
    }
}

#[test]
fn the_sheet_of_so_many_lines_has_them() {
    for (lines, count) in [
        (MOST_LINES, Ok(MOST_PAGES)),
        (MOST_LINES + 1, Err(Refusal::TooManyPages)),
    ] {
        let pages = pages(&generate::of_lines(lines));
        assert_eq!(
            pages.map(|pages| pages.len() / PAGE_BYTES),
            count,
            "{lines}"
        );
    }
}

#[test]
fn reading_the_columns_back_gives_the_answer() {
    deep::run(|| {
        let mut rng = Rng::new(61);
        let mut read = 0;
        for _ in 0..2_000 {
            let sheet = generate::sheet(&mut rng, Size::Any);
            let admitted = reference::admit(&sheet).ok();
            let Some(answer) = admitted.and_then(|admitted| admitted.answer) else {
                continue;
            };
            if let Some(pages) = page::laid_out(&answer) {
                let back = page::read_back(&pages).map(String::into_bytes);
                assert!(
                    back.as_ref() == Some(&answer),
                    "{}",
                    String::from_utf8_lossy(&sheet)
                );
                read += 1;
            }
        }
        assert!(read > 1_000, "{read}");
    });
}

#[test]
fn what_is_no_page_is_not_read_back() {
    let page = page::laid_out(b"equal=yes\n").unwrap();
    assert_eq!(page::read_back(&page).as_deref(), Some("equal=yes\n"));
    let mut numbered = page.clone();
    numbered[8] = b'2';
    let short = &page[..page.len() - 73];
    for other in [&numbered[..], short, b"", b"\n"] {
        assert_eq!(page::read_back(other), None);
    }
}

// Both calls on a sheet with room just enough, one byte less, none and more, and with a word less.
fn tried(comparison: &mut Comparison, sheet: &str) {
    let bytes = sheet.as_bytes();
    let (words, admitted) = (needed(bytes), reference::admit(bytes).unwrap());
    for call in Call::ALL {
        let given = reference::given(call, admitted.answer.clone());
        let length = given.as_ref().map_or(MOST_PAGES * PAGE_BYTES, Vec::len);
        let rooms = [length, length - 1, 0, length + 4_000];
        for room in rooms {
            let reply = reference::settled(given.clone(), room);
            comparison.add("limits", Asked::new(call, bytes, words, room), reply);
        }
        let less = Asked::new(call, bytes, words - 1, length);
        comparison.add("a word less", less, Reply::Refused(Refusal::ShortWorkArea));
    }
}

fn none_differ(sheets: impl Iterator<Item = String> + Send) {
    deep::run(|| {
        let mut comparison = Comparison::default();
        let mut count = 0;
        for sheet in sheets {
            tried(&mut comparison, &sheet);
            count += 10;
        }
        let smallest = comparison.smallest.as_ref().map(ToString::to_string);
        assert_eq!((comparison.calls, smallest), (count, None));
    });
}

#[test]
fn the_library_lays_out_at_every_limit() {
    if notice::library_absent("pages were not asked of it") {
        return;
    }
    let texts = [1, 62, 63, 64, 125, 126, 127].map(name);
    let lines = [48, 49, 50, 51, 98, 99, 147, 148].map(|lines| name(63 * lines));
    let begun = [49, 98].map(|lines| name(63 * lines + 1));
    let bound = [0, 1, 23, 24, 48, 49].map(bindings);
    none_differ(texts.into_iter().chain(lines).chain(begun).chain(bound));
}

#[test]
fn the_library_lays_out_9999_pages_and_refuses_10000() {
    if notice::library_absent("many pages were not asked of it") {
        return;
    }
    let lines = [MOST_LINES - page::BELOW, MOST_LINES, MOST_LINES + 1];
    none_differ(lines.into_iter().map(generate::of_lines));
}

// What the library gives with garbage lent, and so much room.
fn replied(call: Call, sheet: &[u8], room: usize) -> Reply {
    let words = needed(sheet).max(1 << 16) as usize;
    let (mut work, mut output) = (vec![0x5a5a_5a5a; words], vec![0xa5; room]);
    let called = lent::call("both calls", call, sheet, &mut work, &mut output);
    Reply::given(called, &output)
}

// Without the reference: the pages hold the answer of the other call, and refusals are the same. The
// sheets with too many pages need more words than are lent here.
#[test]
fn the_pages_of_the_library_hold_its_answers() {
    if notice::library_absent("its pages were not read back") {
        return;
    }
    let mut read = 0;
    for record in store::stored().unwrap() {
        let sheet = &record.case.sheet;
        if needed(sheet) > 1 << 22 {
            continue;
        }
        let answer = replied(Call::Answer, sheet, 1 << 20);
        let pages = replied(Call::Page, sheet, 1 << 20);
        let (Reply::Answer(answer), Reply::Answer(pages)) = (&answer, &pages) else {
            assert_eq!(answer, pages, "{}", record.label);
            continue;
        };
        assert_eq!(pages.len() % PAGE_BYTES, 0, "{}", record.label);
        let back = page::read_back(pages).map(String::into_bytes);
        assert!(back.as_ref() == Some(answer), "{}", record.label);
        read += 1;
    }
    assert!(read > 200, "{read}");
}

#[test]
fn thirteen_comes_before_twelve_and_after_four() {
    if notice::library_absent("its refusals of pages were not tried") {
        return;
    }
    let over = generate::of_lines(MOST_LINES + 1);
    for room in [0, 1, PAGE_BYTES, 1 << 26] {
        let reply = replied(Call::Page, over.as_bytes(), room);
        assert_eq!(reply, Reply::Refused(Refusal::TooManyPages), "{room}");
    }
    let unreadable = format!("{over}left=(\nright=a\n");
    let reply = replied(Call::Page, unreadable.as_bytes(), 0);
    assert_eq!(reply, Reply::Refused(Refusal::UnreadableTerm));
    let reply = replied(Call::Answer, over.as_bytes(), 0);
    assert_eq!(reply, Reply::Refused(Refusal::ShortOutput));
}
