// Reading of sheets: keys, values, members, fuel, and the words needed.
use host::{
    kinds,
    sheet::{Member, Sheet, read, words_needed},
};
use yukhtsami::Refusal::{self, ForeignByte, LineOutOfPlace, TooLong};

fn empty(kind: &str) -> Sheet<'static> {
    Sheet::empty(kinds::named(kind.as_bytes()).unwrap())
}

fn with_terms<'a>(kind: &str, terms: &[&'a str]) -> Sheet<'a> {
    let terms = terms.to_vec();
    Sheet {
        terms,
        ..empty(kind)
    }
}

fn refusal(text: &str) -> Option<Refusal> {
    read(text.as_bytes()).err()
}

#[test]
fn a_key_ends_at_the_first_equals_sign() {
    let sheet = read(b"kind=equal\nleft=a=b\nright= a \n");
    assert_eq!(sheet, Ok(with_terms("equal", &["a=b", " a "])));
    for text in [
        "kind=unify \nfuel=1\n",
        " kind=unify\nfuel=1\n",
        "kind =unify\nfuel=1\n",
    ] {
        assert_eq!(refusal(text), Some(LineOutOfPlace), "{text}");
    }
}

#[test]
fn an_empty_value_is_a_value() {
    assert_eq!(
        read(b"kind=equal\nleft=\nright=\n"),
        Ok(with_terms("equal", &["", ""]))
    );
    assert_eq!(
        read(b"kind=reduce\nterm=\n"),
        Ok(with_terms("reduce", &[""]))
    );
    let member = Member {
        text: "",
        entries: vec![("", "")],
    };
    let sheet = read(b"kind=sound\nterm=a\nmember=\nkey=\nvalue=\n");
    assert_eq!(
        sheet,
        Ok(Sheet {
            members: vec![member],
            ..with_terms("sound", &["a"])
        })
    );
    assert_eq!(refusal("kind=unify\nfuel=\n"), Some(LineOutOfPlace));
}

#[test]
fn members_come_in_the_numbers_allowed() {
    assert_eq!(read(b"kind=cover\n"), Ok(empty("cover")));
    assert_eq!(
        read(b"kind=complete\nterm=a\n"),
        Ok(with_terms("complete", &["a"]))
    );
    assert_eq!(refusal("kind=sound\nterm=a\n"), Some(LineOutOfPlace));
    assert_eq!(
        refusal("kind=sound\nterm=a\nmember=\nmember=\n"),
        Some(LineOutOfPlace)
    );
}

#[test]
fn a_key_is_repeated_within_one_member_only() {
    let member = Member {
        text: "",
        entries: vec![("k", "a")],
    };
    let sheet = read(b"kind=cover\nmember=\nkey=k\nvalue=a\nmember=\nkey=k\nvalue=a\n");
    assert_eq!(
        sheet,
        Ok(Sheet {
            members: vec![member.clone(), member],
            ..empty("cover")
        })
    );
    for kind in ["cover", "sound\nterm=a", "complete\nterm=a"] {
        let text =
            format!("kind={kind}\nmember=\nkey=k\nvalue=a\nkey=j\nvalue=a\nkey=k\nvalue=b\n");
        assert_eq!(refusal(&text), Some(LineOutOfPlace), "{text}");
    }
}

#[test]
fn lines_out_of_place_are_refused() {
    for text in [
        "",
        "\n",
        "kind=equal",
        "kind=equal\nleft=a\nright=a",
        "kind=equal\nleft=a\n\nright=a\n",
        "kind=equal\nleft=a\nright=a\n\n",
        "kind=equal\nleft=a\nright=a\nleft\n",
        "kind=unify\nfuel=1\nleft=a\n",
        "kind=cover\nmember=\nkey=a\n",
        "kind=cover\nkey=a\nvalue=a\n",
        "kind=variants\nterm=a\n",
    ] {
        assert_eq!(refusal(text), Some(LineOutOfPlace), "{text}");
    }
}

#[test]
fn fuel_is_a_number_without_leading_zeros() {
    for (text, fuel) in [("0", 0), ("7", 7), ("65536", 65_536)] {
        let sheet = format!("kind=match\nfuel={text}\n");
        assert_eq!(
            read(sheet.as_bytes()),
            Ok(Sheet {
                fuel,
                ..empty("match")
            })
        );
    }
    for text in [
        "+1", " 1", "1 ", "00", "01", "65537", "99999", "100000", "-1", "0x1", "1e3",
    ] {
        assert_eq!(
            refusal(&format!("kind=match\nfuel={text}\n")),
            Some(LineOutOfPlace),
            "{text}"
        );
    }
    assert_eq!(
        refusal("kind=match\nfuel=18446744073709551617\n"),
        Some(LineOutOfPlace)
    );
}

#[test]
fn refusals_come_in_their_order() {
    let mut long = vec![0; 65_537];
    assert_eq!(read(&long).err(), Some(TooLong));
    long.pop();
    assert_eq!(read(&long).err(), Some(ForeignByte));
    for byte in 0..=255 {
        let plain = matches!(byte, 10 | 32..=126);
        let refusal = if plain { LineOutOfPlace } else { ForeignByte };
        assert_eq!(read(&[byte]).err(), Some(refusal));
    }
}

#[test]
fn every_colon_needs_words() {
    let needed = |text: &str| words_needed(text.as_bytes(), &read(text.as_bytes()).unwrap());
    assert_eq!(needed("kind=unify\nfuel=1\n"), 1_048_864);
    let cover = "kind=cover\nmember=:\nkey=x0:Msg\nvalue=:(\n";
    assert_eq!(needed(cover), 65_536 * (16 + 3) + 16 * cover.len() as u64);
    let complete = "kind=complete\nterm=g(h(x0:Msg))\nmember=g((\nkey=(\nvalue=(\n";
    assert_eq!(
        needed(complete),
        65_536 * (16 + 1 + 4) + 16 * complete.len() as u64
    );
    let brackets = format!("kind=complete\nterm={}\n", "(".repeat(32_756));
    assert!(needed(&brackets) > 1 << 32);
}
