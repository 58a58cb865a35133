//! Document 02, P7: cargo that is put behind a fit touches the hold alone.

use crate::checker::Entry;
use crate::grown;
use crate::words;

const UNKNOWN_TYPE: u8 = 26;

/// Whether an entry is CargoBay: rule 1 with sub 11.
fn is_hold(entry: &Entry) -> bool {
    entry[1..3] == [1, 11]
}

/// The entries of CargoBay.
pub fn hold(list: &[Entry]) -> Vec<Entry> {
    let own = list.iter().filter(|entry| is_hold(entry));
    own.copied().collect()
}

/// The entries that no cargo may touch, in their order.
fn outside(list: &[Entry]) -> Vec<Entry> {
    let kept = list.iter().filter(|entry| !is_hold(entry));
    let kept = kept.filter(|entry| entry[1] != UNKNOWN_TYPE);
    kept.copied().collect()
}

/// Both lists; `grows` where every added volume is finite and not below zero.
pub fn lists(old: &[Entry], new: &[Entry], grows: bool) -> Result<(), String> {
    same(&outside(old), &outside(new)).map_err(|what| format!("outside the hold, {what}"))?;
    let (was, is) = (hold(old), hold(new));
    if was.len() > 1 || is.len() > 1 {
        return Err("CargoBay is listed more than once".to_string());
    }
    match (was.first(), is.first()) {
        (Some(_), None) if grows => Err("CargoBay is gone".to_string()),
        (Some(was), Some(is)) if grows && !grown::stands_for(was, is) => Err(format!(
            "CargoBay does not stay: {}, then {}",
            words::entry(was),
            words::entry(is)
        )),
        _ => Ok(()),
    }
}

/// The skills of one old result.
pub fn skills(old: &[Entry], new: &[Entry]) -> Result<(), String> {
    same(old, new).map_err(|what| format!("of an old result's skills, {what}"))
}

/// The same entries in the same order, byte for byte.
fn same(old: &[Entry], new: &[Entry]) -> Result<(), String> {
    let pairs = old.iter().zip(new);
    for (number, (old, new)) in pairs.enumerate() {
        if old != new {
            return Err(format!(
                "entry {number} was {} and is {} with cargo behind",
                words::entry(old),
                words::entry(new)
            ));
        }
    }
    match old.len() == new.len() {
        true => Ok(()),
        false => Err(format!(
            "there were {} entries and are {} with cargo behind",
            old.len(),
            new.len()
        )),
    }
}

#[cfg(test)]
mod tests {
    use super::*;

    fn entry(rule: u8, sub: u8, used: f64) -> Entry {
        let mut entry = [0; 24];
        entry[1..3].copy_from_slice(&[rule, sub]);
        entry[8..16].copy_from_slice(&used.to_le_bytes());
        entry
    }

    fn cargo(used: f64) -> Entry {
        entry(1, 11, used)
    }

    #[test]
    fn cargo_and_rule_26_may_come() {
        let (cpu, mode) = (entry(1, 0, 2.0), entry(20, 0, 0.0));
        assert!(lists(&[], &[], true).is_ok());
        assert!(lists(&[mode, cpu], &[mode, cpu], true).is_ok());
        let new = [mode, cpu, cargo(7.0), entry(26, 0, 1.0)];
        assert!(lists(&[mode, cpu], &new, true).is_ok());
        assert!(lists(&[mode, cpu, entry(26, 0, 2.0)], &new, true).is_ok());
    }

    /// Every byte of an entry counts but for rule 26's and those of the hold.
    #[test]
    fn one_byte_is_seen() {
        for at in 0..24 {
            let old = [entry(20, 0, 0.0), entry(17, 2, 3.0)];
            let mut new = old;
            new[1][at] ^= 0x80;
            assert!(lists(&old, &new, true).is_err(), "byte {at}");
            assert!(lists(&old, &new, false).is_err(), "byte {at}");
            assert!(skills(&old, &new).is_err(), "byte {at}");
        }
        let (of_hold, of_drones) = (cargo(5.0), entry(1, 5, 5.0));
        assert!(lists(&[of_drones], &[of_hold], false).is_err());
    }

    #[test]
    fn order_and_number_are_seen() {
        let (a, b) = (entry(4, 0, 0.0), entry(8, 0, 0.0));
        assert!(lists(&[a, b], &[b, a], true).is_err());
        assert!(lists(&[a, b], &[a], true).is_err());
        assert!(lists(&[a], &[a, b], true).is_err());
        assert!(lists(&[a], &[a, a], false).is_err());
        assert!(skills(&[a, b], &[b, a]).is_err());
        assert!(skills(&[a, b], &[a]).is_err());
        assert!(skills(&[a], &[a, b]).is_err());
        assert!(skills(&[a, b], &[a, b]).is_ok());
    }

    /// Rule 26 and CargoBay are passed over in lists alone: no list of skills
    /// has them.
    #[test]
    fn skills_pass_over_nothing() {
        assert!(skills(&[], &[cargo(1.0)]).is_err());
        assert!(skills(&[], &[entry(26, 0, 1.0)]).is_err());
    }

    #[test]
    fn the_hold_stays_where_volumes_are_numbers() {
        assert!(lists(&[cargo(5.0)], &[], true).is_err());
        assert!(lists(&[cargo(5.0)], &[cargo(4.5)], true).is_err());
        assert!(lists(&[cargo(5.0)], &[cargo(f64::NAN)], true).is_err());
        assert!(lists(&[cargo(5.0)], &[cargo(5.0)], true).is_ok());
        assert!(lists(&[cargo(5.0)], &[cargo(5.5)], true).is_ok());
        let mut other = cargo(5.0);
        other[20] = 1;
        assert!(lists(&[cargo(5.0)], &[other], true).is_err());
        // A volume below zero, an infinite one and a NaN may do anything to it.
        assert!(lists(&[cargo(5.0)], &[], false).is_ok());
        assert!(lists(&[cargo(5.0)], &[cargo(4.5)], false).is_ok());
    }

    #[test]
    fn there_is_one_hold_whatever_the_volumes() {
        let twice = [cargo(5.0), cargo(6.0)];
        assert!(lists(&[cargo(5.0)], &twice, true).is_err());
        assert!(lists(&[], &twice, false).is_err());
        assert!(lists(&twice, &[cargo(6.0)], false).is_err());
    }
}
