// The sheets of document 01 and of its readings, with replies written by hand, and what a call
// leaves in the lent output and work area.
use host::{
    deep, examples, notice,
    reference::{self, Reply, output_right, work_right},
    sheet,
};
use yukhtsami::Refusal;

fn check(list: Vec<examples::Example>) {
    notice::absent("the model answered alone");
    deep::run(|| {
        for example in list {
            let needed = sheet::read(&example.sheet)
                .map_or(0, |sheet| sheet::words_needed(&example.sheet, &sheet));
            let words = example.words.unwrap_or(needed);
            let room = example.room.unwrap_or(1 << 20);
            let reply = reference::call(example.call, &example.sheet, words, room);
            assert_eq!(reply, example.reply, "example {}", example.label);
        }
    });
}

#[test]
fn the_sheets_of_the_document() {
    let list = examples::of_document();
    assert_eq!(
        list.iter()
            .filter(|example| example.label.starts_with('P'))
            .count(),
        12
    );
    check(list);
}

#[test]
fn the_sheets_of_the_readings() {
    let list = examples::all();
    assert!(list.len() > 250);
    check(list);
}

#[test]
fn labels_are_words_and_differ() {
    let mut labels: Vec<_> = examples::all()
        .iter()
        .map(|example| example.label)
        .collect();
    assert!(
        labels
            .iter()
            .all(|label| !label.is_empty() && !label.contains(' '))
    );
    labels.sort_unstable();
    assert!(labels.windows(2).all(|two| two[0] != two[1]));
}

#[test]
fn the_output_keeps_what_is_not_written() {
    let answer = Reply::Answer(b"ab".to_vec());
    assert!(output_right(&answer, b"xyz", b"abz"));
    assert!(!output_right(&answer, b"xyz", b"aby"));
    assert!(!output_right(&answer, b"xyz", b"xbz"));
    assert!(!output_right(&answer, b"xyz", b"ab"));
    assert!(output_right(
        &Reply::Refused(Refusal::ShortOutput),
        b"xyz",
        b"xyz"
    ));
    assert!(!output_right(
        &Reply::Refused(Refusal::ShortOutput),
        b"xyz",
        b"ayz"
    ));
}

#[test]
fn the_work_area_is_cleared_or_kept() {
    let sheet = b"kind=reduce\nterm=(\n";
    let needed = 65_536 * 16 + 16 * sheet.len();
    let before = vec![7; needed + 2];
    let mut after = before.clone();
    assert!(!work_right(sheet, &before, &after));
    after[..needed].fill(0);
    assert!(work_right(sheet, &before, &after));
    after[needed] = 0;
    assert!(!work_right(sheet, &before, &after));
    let short = vec![7; needed - 1];
    assert!(work_right(sheet, &short, &short));
    assert!(!work_right(sheet, &short, &vec![0; needed - 1]));
    assert!(work_right(b"no sheet", &[7, 7], &[7, 7]));
}
