// The sheets of the bench: each is answered, small ones as the reference says, and what the bench
// writes into a document; the deepest sheets.
use host::{
    bench, deep, deepest,
    kinds::{KINDS, Kind},
    lent, notice,
    reference::{self, Reply},
    sheet,
};
use yukhtsami::Call;

// The reply of the library with a sheet's own words, on a small stack.
fn replied(name: &str, text: &str) -> Reply {
    let bytes = text.as_bytes();
    let read = sheet::read(bytes).expect("a sheet");
    let mut work = vec![1; sheet::words_needed(bytes, &read) as usize];
    let mut output = vec![0; 8 * sheet::LONGEST];
    let called = lent::call(name, Call::Answer, bytes, &mut work, &mut output);
    Reply::given(called, &output)
}

fn is_answered(name: &str, text: &str) {
    let reply = replied(name, text);
    assert!(matches!(reply, Reply::Answer(_)), "{name}: {reply:?}");
}

#[test]
fn every_sample_is_answered() {
    if notice::library_absent("the samples were not tried on it") {
        return;
    }
    for sample in KINDS.iter().flat_map(|kind| (kind.samples)()) {
        is_answered(sample.name, &sample.sheet);
    }
}

#[test]
fn every_kind_has_a_small_sample_and_a_workload() {
    for kind in KINDS {
        let small = |sample: &bench::Sample| sample.name.starts_with("small");
        assert!((kind.samples)().iter().any(small), "{kind:?}");
        assert!(!kind.workloads.is_empty(), "{kind:?}");
    }
}

#[test]
fn the_largest_size_of_every_workload_is_answered() {
    if notice::library_absent("the workloads were not tried on it") {
        return;
    }
    for workload in KINDS.iter().flat_map(|kind| kind.workloads) {
        let [.., largest] = workload.sizes();
        is_answered(workload.name, &(workload.sheet)(largest));
    }
}

#[test]
fn small_sheets_are_answered_as_the_reference_says() {
    if notice::library_absent("small sheets were not tried on it") {
        return;
    }
    notice::absent("the library was compared with the model alone");
    let agree = |name: &str, text: &str| {
        let known =
            deep::run(|| reference::call(Call::Answer, text.as_bytes(), u64::MAX, usize::MAX));
        assert_eq!(replied(name, text), known, "{name}\n{text}");
    };
    for sample in KINDS.iter().flat_map(|kind| (kind.samples)()) {
        if sample.name.starts_with("small") {
            agree(sample.name, &sample.sheet);
        }
    }
    for workload in KINDS.iter().flat_map(|kind| kind.workloads) {
        for size in [2, 4, 8, 16] {
            agree(workload.name, &(workload.sheet)(size));
        }
    }
}

#[test]
fn a_workload_doubles_its_sheet() {
    let named = |kind: &'static Kind| kind.workloads.iter().map(|workload| (kind.name, workload));
    for (kind, workload) in KINDS.iter().flat_map(named) {
        let sheets = workload.sizes().map(workload.sheet);
        assert!(sheets[4].len() <= sheet::LONGEST, "{}", workload.name);
        assert!(sheets.is_sorted_by_key(String::len), "{}", workload.name);
        let line = format!("kind={kind}\n");
        assert!(sheets[0].starts_with(&line), "{}", workload.name);
    }
}

#[test]
fn every_deepest_sheet_is_a_sheet() {
    for (label, text) in deepest::sheets() {
        assert!(sheet::read(text.as_bytes()).is_ok(), "{label}");
    }
}

#[test]
fn what_stands_between_marks_is_replaced() {
    let text = "a\n<!-- one -->\nold\n<!-- end one -->\nb\n<!-- two -->\n<!-- end two -->\n";
    let parts = [("one", "new\n"), ("two", "more\n")];
    let expected =
        "a\n<!-- one -->\nnew\n<!-- end one -->\nb\n<!-- two -->\nmore\n<!-- end two -->\n";
    assert_eq!(bench::written(text, &parts).unwrap(), expected);
    assert!(bench::written("<!-- one -->\nold\n", &parts).is_err());
}
