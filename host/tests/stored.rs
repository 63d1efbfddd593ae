// The stored list: its form, what it holds, and its replies against the reference.
use std::fs;

use host::{
    notice,
    reference::Reply,
    store::{self, MODEST_WORDS},
    tally::Tally,
};
use yukhtsami::{Call, Refusal};

#[test]
fn the_list_has_every_kind_verdict_and_refusal() {
    let records = store::stored().unwrap();
    assert!(records.len() >= 300);
    let mut tally = Tally::default();
    for record in &records {
        tally.add(record.case.call, &record.case.sheet, &record.case.reply);
    }
    assert_eq!(tally.missing(), Vec::<String>::new());
    let modest = records
        .iter()
        .filter(|record| record.case.words <= MODEST_WORDS)
        .count();
    assert!(modest >= 200, "{modest}");
}

#[test]
fn the_list_is_plain_text() {
    let bytes = fs::read(store::path()).unwrap();
    assert!(bytes.len() < 800_000);
    assert!(bytes.starts_with(b"#") && bytes.ends_with(b"\n") && !bytes.contains(&0));
    assert!(String::from_utf8(bytes).is_ok());
}

#[test]
fn the_list_agrees_with_the_reference() {
    notice::absent("the list was compared with the model alone");
    let records = store::stored().unwrap();
    let wrong: Vec<_> = store::wrong(&records)
        .iter()
        .map(|record| record.label.clone())
        .collect();
    assert_eq!(wrong, Vec::<String>::new());
}

#[test]
fn the_list_is_what_store_writes() {
    assert!(fs::read(store::path()).unwrap() == store::written(&store::made()));
}

#[test]
fn the_replay_program_has_the_same_list() {
    assert!(fs::read(store::path()).unwrap() == fs::read(store::replay_path()).unwrap());
}

#[test]
fn a_wrong_reply_is_found() {
    let mut records = store::stored().unwrap();
    records.truncate(2);
    records[1].case.reply = Reply::Answer(b"verdict=unsupported\nspent=4\n".to_vec());
    assert_eq!(store::wrong(&records).len(), 1);
    records[1].case.reply = Reply::Refused(Refusal::UnreadableTerm);
    assert_eq!(store::wrong(&records).len(), 1);
}

#[test]
fn a_list_out_of_form_is_refused() {
    let good = b"# head\nsheet 9 8 3 1 0 name\na\npages 9 8 13 1 0 name\na\n";
    let calls = store::read(good).unwrap().into_iter();
    let calls: Vec<Call> = calls.map(|record| record.case.call).collect();
    assert_eq!(calls, Call::ALL);
    for bad in [
        "sheet 9 8 3 1 0 name\na",
        "sheet 9 8 3 2 0 name\na\n",
        "sheet 9 8 3 1 1 name\nab\n",
        "sheet 9 8 3 1 name\na\n",
        "sheet 9 8 x 1 0 name\na\n",
        "record 9 8 3 1 0 name\na\n",
        "page 9 8 3 1 0 name\na\n",
        "sheet 9 8 3 1 0 name more\na\n",
        "sheet 9 8 3 1 0 name\na\n# late\n",
    ] {
        assert!(store::read(bad.as_bytes()).is_err(), "{bad}");
    }
}
