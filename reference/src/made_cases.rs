//! Made descriptions (request 2.3) for the comparison.

use crate::board::GAUGE;
use crate::calls::Calls;
use crate::generator::made;
use crate::loads::all_sizes;
use crate::Refusal;

/// How many seeds are tried for each of the sizes.
const TRIED: u32 = 100;

/// Two of each of the sizes: that of the first seed, and of the others one that Accept declines by the greatest number or not at all.
pub fn made_cases() -> Vec<Vec<u8>> {
    let two = |(number, sizes): (u32, [u32; 3])| {
        let seeds = TRIED * number + 1..=TRIED * (number + 1);
        let mut tried = seeds.filter_map(|seed| made(seed, sizes).ok());
        let first = tried.next();
        let latest = tried.max_by_key(|made| answer(made));
        first.into_iter().chain(latest)
    };
    (0..).zip(all_sizes()).flat_map(two).collect()
}

/// The number by which Accept declines a description; one above them all if it does not.
fn answer(description: &[u8]) -> u32 {
    match Calls::on(GAUGE, description).accept() {
        Ok(_) => u32::MAX,
        Err(Refusal(number)) => number,
    }
}
