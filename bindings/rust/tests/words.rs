//! What is written for a person: keys, marks, reasons and refusals.

use mbelaguy::rows::Reason;
use mbelaguy::{base58, ids, Refusal, Section, Table};
use std::collections::BTreeSet;

#[test]
fn base58_both_ways() {
    for (key, _) in ids::NAMED {
        assert_eq!(base58::decode(&base58::encode(&key)), Some(key));
    }
    assert_eq!(base58::encode(&[0; 32]), "1".repeat(32));
    assert_eq!(base58::encode(&[255; 32]), "JEKNVnkbo3jma5nREBBJCDoXFVeKkD56V3xKrvRmWxFG");
    assert_eq!(base58::short(&ids::SPL_TOKEN), "Toke..Q5DA");
}

/// Keys whose texts begin and end alike, by ever more letters, beside one that is like none.
#[test]
fn short_forms_never_look_alike() {
    let near = |at: usize| {
        let mut key = [7; 32];
        key[at] = 8;
        key
    };
    let mut keys: Vec<_> = (0..32).map(near).collect();
    keys.extend([[7; 32], [9; 32]]);
    let forms = base58::ShortForms::of(keys.iter().copied().chain(keys.clone()));
    let shown: BTreeSet<_> = keys.iter().map(|key| forms.get(key)).collect();
    assert_eq!(shown.len(), keys.len());
    assert_eq!(forms.get(&[9; 32]), base58::short(&[9; 32]));
    // Neither is the beginning and the end of one the beginning and the end of another.
    let ends = |form: &str| form.split_once("..").map(|(a, z)| (a.to_string(), z.to_string()));
    for key in &keys {
        let Some((first, last)) = ends(&forms.get(key)) else { continue };
        let alike = |other: &&[u8; 32]| {
            let text = base58::encode(other);
            text.starts_with(&first) && text.ends_with(&last)
        };
        assert_eq!(keys.iter().filter(alike).count(), 1);
    }
    assert_eq!(forms.get(&[1; 32]), base58::encode(&[1; 32]));
}

#[test]
fn what_is_no_key() {
    let long = "1".repeat(33);
    for text in ["", "0", "l", "abc", &long, "JEKNVnkbo3jma5nREBBJCDoXFVeKkD56V3xKrvRmWxFH"] {
        assert_eq!(base58::decode(text), None, "{text}");
    }
}

#[test]
fn names_of_ids() {
    assert_eq!(ids::name(&ids::WRAPPED_SOL), Some("wrapped SOL"));
    assert_eq!(ids::name(&ids::SYSTEM), None);
}

#[test]
fn reasons_by_number() {
    let known = (0..=u8::MAX).filter_map(|number| Some((number, Reason::of(number)?)));
    assert!(known.eq((1..).zip(Reason::ALL)));
    let words: BTreeSet<_> = Reason::ALL.iter().map(Reason::to_string).collect();
    assert_eq!(words.len(), Reason::ALL.len());
}

#[test]
fn refusals_by_number_and_place() {
    let mut known = 0;
    for number in 1..30 {
        for place in 0..7 {
            let refusal = Refusal::of(number, place);
            assert_eq!((refusal.number(), refusal.place()), (number, place));
            known += u32::from(refusal != Refusal::Unknown { number, place });
        }
    }
    assert_eq!(known, 7 + 5 + 5 + 4);
}

#[test]
fn refusals_in_words() {
    let words = |refusal: Refusal| refusal.to_string();
    assert_eq!(words(Refusal::Names), "refusal 1, place 0: the names are not 88 bytes");
    assert_eq!(
        words(Refusal::Section(Section::Outer)),
        "refusal 4, place 2 (section of outer instructions): it ends inside an instruction"
    );
    assert_eq!(
        words(Refusal::Balances),
        "refusal 11, place 1 (section of balances): \
         a row's account index is not below the number of keys"
    );
    assert_eq!(
        words(Refusal::Room(Table::Natives)),
        "refusal 8, place 4 (table of native actions): it has fewer whole rows than are needed"
    );
    assert_eq!(
        words(Refusal::ReportRows),
        "refusal 9, place 0: the report has fewer whole rows than are needed"
    );
    assert_eq!(
        words(Refusal::of(21, 0)),
        "refusal 21, place 0: not known here; the library is of another release"
    );
}
