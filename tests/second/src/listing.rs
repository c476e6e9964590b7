//! The text of a listing and of a refusal.

use crate::sets::Pairs;
use crate::table::Refusal;

pub fn text(pairs: &Pairs, rounds: usize, wide: bool) -> Vec<u8> {
    let listed = pairs.listed();
    let verdict = if wide { "wide" } else { "exact" };
    let mut text = format!("pairs\t{}\trounds\t{rounds}\t{verdict}\n", listed.len());
    for (i, j) in listed {
        text.push_str(&format!("{i}\t{j}\n"));
    }
    text.into_bytes()
}

pub fn refused(refusal: Refusal) -> Vec<u8> {
    format!("refused\t{}\t{}\n", refusal.number, refusal.place).into_bytes()
}
