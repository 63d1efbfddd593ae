// The script `wrong-definitions/run` on small crates, with a stub in place of the prover: what it keeps of the
// laws, and each way in which a wrong definition is not noticed.
#[allow(dead_code)]
mod shared;

use std::{env, fs, os::unix::fs::PermissionsExt, path::Path, process::Command};

// A law holds where the definitions have `value = 1`, but for those that say nothing of it. `rests` is not checked where the
// definitions have `rests` or `counted`: it is named, or only counted, and then named at a file that cites it.
const RATTLE: &str = r#"#!/bin/sh
cd ../.. || exit 2
definitions=crates/rules/specs/Lib.antt
case $* in
"check --crate-name laws "*)
    if grep -q lacking $definitions; then echo './proofs/Lib.antt:1:1: error: module `Other` has no `x` that can be named from here'; exit 1; fi
    if grep -q broken $definitions; then echo '../rules/specs/Lib.antt:2:1: error: no definition'; exit 1; fi
    find crates/laws/proofs -type f | sort >>"$SEEN"
    for used in $(grep -rhoE '^(pub )?use Rattle\.laws\.proofs\.[A-Za-z.]*' crates/laws/proofs | sed 's/.*proofs\.//; s/\.$//; s|\.|/|g'); do
        [ -e "crates/laws/proofs/$used.antt" ] || { echo "error: no module $used"; exit 1; }
    done
    grep -q 'value = 1' $definitions && exit
    grep -rhoE '[a-z_]+ : value' crates/laws/proofs | sed 's/\(.*\) : value/error: `\1`: no proof/'
    of='error: 4 declarations that depend on `means`, which was rejected, were not checked:'
    if grep -q 'rests' $definitions; then echo "$of first, rests (via first), third (via rests) and 1 more"; fi
    if grep -q 'counted' $definitions; then
        echo "$of first, second (via first), third and 1 more"
        for law in silent rests; do
            at=./proofs/Cites_$law.antt
            [ ! -e crates/laws/$at ] || [ $law = rests ] || echo "$at:2:1: error: it is private"
            [ ! -e crates/laws/$at ] || printf '%s:4:1: error: 1 declaration that depends on `%s`, which was not admitted, was not checked: cited\n' $at $law
        done
    fi
    exit 1
    ;;
esac
"#;

const FILES: [(&str, &str); 10] = [
    ("crates/rules/specs/Lib.antt", "first\nvalue = 1\nlast\n"),
    ("crates/laws/src/lib.rt", ""),
    ("crates/laws/specs/Lib.antt", ""),
    (
        "crates/laws/proofs/Lib.antt",
        "pub mod Basics\npub mod Solving\nmod Other\n",
    ),
    (
        "crates/laws/proofs/Basics.antt",
        "-- tests\npub mod Tests\npub mod Unused\n",
    ),
    ("crates/laws/proofs/Basics/Tests.antt", "helper : value\n"),
    ("crates/laws/proofs/Basics/Unused.antt", "unused : value\n"),
    ("crates/laws/proofs/Solving.antt", "pub mod Means\n"),
    (
        "crates/laws/proofs/Solving/Means.antt",
        "pub use Rattle.laws.proofs.Basics.Tests.{helper}\n\n  pub means : value\n  silent : nothing\n  pub rests : means\n",
    ),
    (
        "crates/laws/proofs/Other.antt",
        "use Rattle.laws.proofs.Basics.Gone.{gone}\nlost : value\n",
    ),
];

fn write(file: &Path, text: &str) {
    fs::create_dir_all(file.parent().unwrap()).unwrap();
    fs::write(file, text).unwrap();
    fs::set_permissions(file, fs::Permissions::from_mode(0o755)).unwrap();
}

fn patch(refused: &str, from: &str, to: &str) -> String {
    let file = "crates/rules/specs/Lib.antt";
    format!("Refused: {refused}\n\n--- a/{file}\n+++ b/{file}\n@@ -2 +2 @@\n-{from}\n+{to}\n")
}

// The status, what was said, and the files of laws that were proved, after one patch is tried.
fn tried(name: &str, patch: &str) -> (Option<i32>, Vec<String>, Vec<String>) {
    let folder = shared::folder(&format!("wrong-{name}"));
    for (file, text) in FILES {
        write(&folder.join(file), text);
    }
    let run = Path::new(env!("CARGO_MANIFEST_DIR")).join("../wrong-definitions/run");
    let run = fs::read_to_string(run).unwrap();
    write(&folder.join("wrong-definitions/run"), &run);
    write(&folder.join("wrong-definitions/one.patch"), patch);
    write(&folder.join("bin/rt"), "#!/bin/sh\nexit 2\n");
    write(&folder.join("bin/rattle"), RATTLE);
    let path = env::var("PATH").unwrap();
    let mut command = Command::new(folder.join("wrong-definitions/run"));
    command.env("PATH", format!("{}/bin:{path}", folder.display()));
    let output = command.env("SEEN", folder.join("seen")).output().unwrap();
    let lines = |text: &str| text.lines().map(str::to_owned).collect();
    let seen = fs::read_to_string(folder.join("seen")).unwrap_or_default();
    let said = String::from_utf8(output.stdout).unwrap();
    (output.status.code(), lines(&said), lines(&seen))
}

#[test]
fn a_wrong_definition_is_tried_on_what_its_law_needs() {
    let (status, said, seen) = tried("refused", &patch("means", "value = 1", "value = 2"));
    let expected = [
        "one.patch: refused by means",
        "1 wrong definitions, each refused",
    ];
    assert_eq!(
        (status, &*said),
        (Some(0), &expected.map(str::to_owned)[..])
    );
    let kept = ["Basics", "Basics/Tests", "Lib", "Solving", "Solving/Means"];
    let kept = kept.map(|file| format!("crates/laws/proofs/{file}.antt"));
    assert_eq!(
        seen,
        [kept.clone(), kept].concat(),
        "with no error, and with it"
    );
}

#[test]
fn a_law_that_rests_on_a_refused_one_is_refused_too() {
    for wrong in ["rests", "counted"] {
        let patch = patch("means rests", "value = 1", &format!("value = 2 {wrong}"));
        let (status, said, _) = tried(wrong, &patch);
        assert_eq!(status, Some(0), "{wrong}: {said:?}");
        assert_eq!(said[0], "one.patch: refused by means rests");
    }
}

#[test]
fn what_is_not_noticed_fails() {
    let wrong = |refused| patch(refused, "value = 1", "value = 2");
    for (name, patch, end) in [
        (
            "applies",
            patch("means", "value = 3", "value = 2"),
            "one.patch: FAILED: the patch does not apply",
        ),
        (
            "accepted",
            patch("means", "value = 1", "value = broken"),
            "one.patch: FAILED: the changed definitions are not accepted as definitions",
        ),
        (
            "lacking",
            patch("means", "value = 1", "value = lacking"),
            "one.patch: FAILED: its laws use what the copy has not",
        ),
        (
            "proved",
            patch("means", "value = 1", "value = 1 again"),
            "one.patch: FAILED: its laws are still proved",
        ),
        (
            "silent",
            wrong("means silent"),
            "one.patch: FAILED: `silent` is not refused",
        ),
        (
            "uncounted",
            patch("means rests silent", "value = 1", "value = 2 counted"),
            "one.patch: FAILED: `silent` is not refused",
        ),
        (
            "none",
            wrong("nowhere"),
            "one.patch: FAILED: crates/laws has none of its laws",
        ),
        (
            "gone",
            wrong("means nowhere"),
            "one.patch: FAILED: `nowhere` is not refused",
        ),
        (
            "broken",
            wrong("means lost"),
            "FAILED: what the laws need of crates/laws is not proved, with no error put in",
        ),
    ] {
        let (status, said, _) = tried(name, &patch);
        assert_eq!(status, Some(1), "{name}: {said:?}");
        assert_eq!(said.last().unwrap(), end);
    }
}
