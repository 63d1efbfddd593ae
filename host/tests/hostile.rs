// Hostile inputs in a fixed order: the stored sheets, changed again and again, on the linked
// library. `fuzz/` makes such inputs with coverage as a guide.
use host::{
    deep,
    hostile::{self, Hostile, change},
    notice,
    rng::Rng,
    store,
};
use yukhtsami::{Call, Refusal};

const CALLS: usize = 2_000;
const LONGEST: usize = 2_000;
const SEED: u64 = 5;

fn seeds() -> Vec<Vec<u8>> {
    let records = store::stored().unwrap();
    let inputs = records.iter().map(hostile::seed);
    inputs.filter(|input| input.len() <= LONGEST).collect()
}

// Each changed input takes the place of the one that it was made from, or is tried and left.
fn tried(calls: usize) -> Hostile {
    let mut rng = Rng::new(SEED);
    let mut inputs = seeds();
    let mut hostile = Hostile::default();
    for _ in 0..calls {
        let at = rng.below(inputs.len());
        let changed = change::changed(&mut rng, &inputs[at], LONGEST);
        hostile
            .call(&changed)
            .unwrap_or_else(|found| panic!("{found}"));
        if rng.once_in(2) {
            inputs[at] = changed;
        }
    }
    hostile
}

#[test]
fn the_library_replies_to_hostile_inputs() {
    if notice::library_absent("hostile inputs were not tried on it") {
        return;
    }
    notice::absent("the library was compared with the model alone");
    let hostile = deep::run(|| tried(CALLS));
    let compared = &hostile.compared;
    assert_eq!((compared.calls, compared.differences), (CALLS, 0));
    let refused = |call: Call| -> usize {
        let counts = Refusal::ALL.map(|refusal| compared.tally.refused(call, refusal));
        counts.iter().sum()
    };
    let answered = CALLS - refused(Call::Answer) - refused(Call::Page);
    assert!(answered >= CALLS / 5, "{}", compared.tally);
    assert!(hostile.unjudged < CALLS / 100, "{}", hostile.unjudged);
}

#[test]
fn changes_keep_to_the_most_bytes_and_are_the_same_each_time() {
    let made = || {
        let mut rng = Rng::new(SEED);
        let inputs = seeds();
        let mut change = || {
            let at = rng.below(inputs.len());
            change::changed(&mut rng, &inputs[at], 300)
        };
        (0..5_000).map(|_| change()).collect::<Vec<_>>()
    };
    let inputs = made();
    assert!(inputs.iter().all(|input| input.len() <= 300));
    assert!(inputs == made());
    for short in [&[][..], b"a", b"ab", b"abc", b"ab\n"] {
        for seed in 0..500 {
            change::changed(&mut Rng::new(seed), short, 300);
        }
    }
}
