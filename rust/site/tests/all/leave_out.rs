//! What to take off, by the crate, beside document 02: tries on fits that are rebuilt from
//! what stays.

use compare::reference::{self, Judge, leave_out};
use fitcheck::{
    CatalogueBuilder, Explainer, FitBuilder, FitItem, ItemResult, LEAVE_OUT_BYTES, LeaveOut,
    MOST_TRIES, Names, Refusal, Slot, State,
};

use crate::common::{images, numbers};

#[test]
fn what_to_take_off_is_document_02s() {
    let (mut sets, mut taken, mut fewest, mut least) = (0, 0, 0, 0);
    let names = Names::default();
    for case in numbers(300) {
        let (catalogue, fits) = images(57, case);
        let Some(fit) = fits.first() else {
            continue;
        };
        let decoded = reference::Catalogue::decode(&catalogue)
            .and_then(|catalogue| Ok((catalogue, reference::Fit::decode(fit)?)));
        let (types, decoded) = match decoded {
            Ok(decoded) => decoded,
            Err(refusal) => {
                let ours = LeaveOut::within(&catalogue, fit, MOST_TRIES).map(|_| ());
                assert_eq!(
                    ours.map_err(Refusal::number),
                    Err(refusal.into()),
                    "case {case}"
                );
                continue;
            }
        };
        let judge = Judge::new(&types, &decoded);
        let all = reference::LeaveOut::of(&judge);
        let pairs = all.pairs as u32;
        for tries in [0, pairs / 2, pairs, MOST_TRIES - 1, MOST_TRIES, u32::MAX] {
            let expected = all.within(tries);
            let ours = LeaveOut::within(&catalogue, fit, tries).expect("nothing is refused");
            let numbers = expected.numbers().into_iter();
            let numbers: Vec<usize> = numbers.map(|number| number as usize).collect();
            assert_eq!(ours.items(), numbers, "case {case}, {tries} tries");
            assert_eq!(
                (ours.tries(), ours.most_too_many()),
                (expected.tries, expected.distance)
            );
            assert_eq!(ours.fit_items().count(), numbers.len());
            assert!(8 + 4 * numbers.len() <= LEAVE_OUT_BYTES);
            if ours.is_least() && all.pairs <= leave_out::FEW {
                for number in &numbers {
                    let mut off = expected.off.clone();
                    off[*number] = false;
                    assert!(!judge.is_good(&off), "case {case}, {tries} tries, {number}");
                    least += 1;
                }
            }
            if ours.is_fewest() && all.pairs <= leave_out::SETS {
                let best = all.within(u32::MAX).numbers().len();
                assert_eq!(numbers.len(), best, "case {case}, {tries} tries");
                fewest += 1;
            }
            let sentence = ours.sentence(&Explainer::new(fit, &names));
            let is_nothing = sentence.starts_with("take nothing off");
            assert_eq!(is_nothing, numbers.is_empty(), "{sentence}");
            sets += 1;
            taken += numbers.len();
        }
    }
    assert!(
        sets > 1_000 && taken > 500 && fewest > 200 && least > 100,
        "{sets} sets, {taken} taken off, {fewest} of the fewest, {least} put back"
    );
}

/// A fit with more items than sets are tried of, two of which share a slot.
fn shared() -> (Vec<u8>, Vec<u8>) {
    let catalogue = CatalogueBuilder::new()
        .type_info(587, 25, 6, None)
        .type_info(2048, 60, 7, Some(5.0))
        .build()
        .expect("a catalogue");
    let mut fit = FitBuilder::new(587);
    let slots = (0..8).flat_map(|index| [Slot::Low(index), Slot::High(index)]);
    for slot in slots.chain([Slot::Low(3)]) {
        let item = FitItem::new(2048, slot);
        fit.item(item, ItemResult::new(State::Online));
    }
    (catalogue, fit.build().expect("a fit"))
}

/// Of more than 16 items one is the fewest where it cannot be put back: with none taken
/// off, it would have been.
#[test]
fn a_single_item_is_the_fewest_where_each_was_tried() {
    let (catalogue, fit) = shared();
    let names = Names::default();
    let explainer = Explainer::new(&fit, &names);
    let within = |tries| LeaveOut::within(&catalogue, &fit, tries).expect("nothing is refused");
    let all = within(MOST_TRIES);
    assert_eq!(
        (all.items(), all.tries(), all.most_too_many()),
        (&[16][..], 17, 1)
    );
    assert!(all.is_fewest() && all.is_least());
    assert_eq!(
        all.sentence(&explainer),
        "take off item 16 (type 2048): one item, and less is not enough",
    );
    // The last was not tried, and so nobody knows.
    let early = within(16);
    assert_eq!((early.items(), early.tries()), (&[16][..], 16));
    assert!(!early.is_fewest() && !early.is_least());
    assert_eq!(
        early.sentence(&explainer),
        "take off item 16 (type 2048): one item, which may not have to go: more tries would tell",
    );
}
