//! The hall number: how many fits are clear, faulted and refused.

use super::bytes::u32_at;
use super::catalogue::Catalogue;
use super::context::Context;
use super::fault::Fault;
use super::fit::Fit;
use super::league::League;
use super::{Flaw, Measure, Number, Rows, list, resource};
use crate::checker::refused;

#[derive(Clone, Copy, PartialEq)]
enum Verdict {
    Clear,
    Faulted,
    Refused,
}

pub fn hall(catalogue: &[u8], input: &[u8], flaw: Flaw) -> u64 {
    let catalogue = Catalogue::open(catalogue, flaw);
    let fits = fits(input, flaw);
    let (catalogue, fits) = match (catalogue, fits) {
        (Err(_), Err(number)) if flaw.has(Fault::HallCatalogueLast) => return refused(number),
        (Err(number), _) | (_, Err(number)) => return refused(number),
        (Ok(catalogue), Ok(fits)) => (catalogue, fits),
    };

    let mut verdicts = Vec::new();
    for fit in fits {
        let verdict = judge(&catalogue, fit, flaw);
        verdicts.push(verdict);
        if verdict == Verdict::Refused && flaw.has(Fault::HallStops) {
            break;
        }
    }
    let count = |asked| verdicts.iter().filter(|verdict| **verdict == asked).count() as u64;
    let (clear, faulted, refused) = (
        count(Verdict::Clear),
        count(Verdict::Faulted),
        count(Verdict::Refused),
    );
    match () {
        () if flaw.has(Fault::HallDecimal) => clear + 100 * faulted + 10_000 * refused,
        () if flaw.has(Fault::HallInvented) => verdicts.len() as u64,
        () => clear + 256 * faulted + 65_536 * refused,
    }
}

/// The fits of the input, or refusal 4.
fn fits(input: &[u8], flaw: Flaw) -> Result<Vec<&[u8]>, u8> {
    if input.len() < 4 || flaw.refuses(Measure::HallBytes, input.len()) {
        return Err(4);
    }
    let count = u32_at(input, 0) as usize;
    let most = match () {
        () if flaw.has(Fault::Hall64) => 63,
        () if flaw.has(Fault::Hall65) => 65,
        () => 64,
    };
    if count > most || (count == 0 && flaw.has(Fault::HallNone)) {
        return Err(4);
    }
    let head = 4 + 4 * count;
    if input.len() < head {
        return Err(4);
    }
    let lengths: Vec<u64> = (0..count)
        .map(|n| u32_at(input, 4 + 4 * n).into())
        .collect();
    let mut total = head as u64 + lengths.iter().sum::<u64>();
    if flaw.has(Fault::HallLengthsWrap) {
        total %= 1 << 32;
    }
    let given = input.len() as u64;
    if total != given && !(given > total && flaw.has(Fault::HallMayBeLonger)) {
        return Err(4);
    }
    let mut at = head;
    let mut fits = Vec::new();
    for length in lengths {
        let end = (at as u64 + length).min(given) as usize;
        let start = flaw.number(Number::HallPlace, at);
        fits.push(&input[start..start + (end - at)]);
        at = end;
    }
    fits.truncate(flaw.rows(Rows::HallFits, count));
    Ok(fits)
}

fn judge(catalogue: &Catalogue, image: &[u8], flaw: Flaw) -> Verdict {
    let listed = Fit::open(image, flaw).and_then(|fit| {
        if flaw.has(Fault::HallSmallPage) && fit.pairs() > 64 {
            return Err(13);
        }
        let context = Context::new(catalogue, &fit, flaw);
        if flaw.has(Fault::HallHangarRefused) && resource::is_hangar(&context) {
            return Err(7);
        }
        let league = League::none(flaw);
        let mut entries = list(catalogue, &fit, &league, flaw)?;
        if flaw.has(Fault::HallUnknownClear) {
            entries.retain(|entry| entry[1] != 26);
        }
        if flaw.has(Fault::HallForGuests) {
            entries.retain(|entry| entry[1] != 21);
        }
        Ok((entries, is_whole(&fit, flaw)))
    });
    let (entries, is_whole) = match listed {
        Err(_) if flaw.has(Fault::HallRefusedFaulted) => return Verdict::Faulted,
        Err(_) => return Verdict::Refused,
        Ok(judged) => judged,
    };
    match entries.first() {
        None if is_whole => Verdict::Clear,
        None if flaw.has(Fault::HallUnreadRefused) => Verdict::Refused,
        Some(_) if !is_whole && flaw.has(Fault::HallUnequalRefused) => Verdict::Refused,
        Some(first) if first[1] == 19 && flaw.has(Fault::HallNoHullRefused) => Verdict::Refused,
        Some(first) if first[1] == 26 && flaw.has(Fault::HallUnknownRefused) => Verdict::Refused,
        Some(_) if entries.len() > 100 && flaw.has(Fault::HallLongListRefused) => Verdict::Refused,
        _ => Verdict::Faulted,
    }
}

/// Whether a fit has as many results as items.
fn is_whole(fit: &Fit, flaw: Flaw) -> bool {
    let (items, results) = (fit.items(), fit.results());
    match () {
        () if flaw.has(Fault::HallUnreadClear) => true,
        () if flaw.has(Fault::HallMoreItemsClear) => fit.pairs() == results,
        () if flaw.has(Fault::HallMoreResultsClear) => fit.pairs() == items,
        () if flaw.has(Fault::HallOneMoreClear) => items.abs_diff(results) <= 1,
        () if flaw.has(Fault::HallShipCounted) => items == results || items == results + 2,
        () if flaw.has(Fault::HallSizesU8) => items as u8 == results as u8,
        () if flaw.has(Fault::HallNoPairsClear) => items == results || fit.pairs() == 0,
        () if flaw.has(Fault::HallPairsFaulted) => items == 0 && results == 0,
        () => items == results,
    }
}
