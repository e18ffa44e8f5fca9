//! The rule that shortens a vector: its greatest common divisor, which is found by trial division, is divided out and handed back.

/// The largest number that divides the magnitude of every word; 0 for the zero vector.
pub fn greatest_common_divisor(vector: &[i32]) -> u32 {
    let magnitudes: Vec<u32> = vector.iter().map(|word| word.unsigned_abs()).collect();
    let smallest = magnitudes
        .iter()
        .copied()
        .filter(|&magnitude| magnitude > 0)
        .min();
    let Some(smallest) = smallest else {
        return 0;
    };
    divisors(smallest)
        .into_iter()
        .filter(|divisor| {
            magnitudes
                .iter()
                .all(|magnitude| magnitude.is_multiple_of(*divisor))
        })
        .max()
        .unwrap_or(1)
}

/// All divisors of a number that is not zero, in no particular order.
fn divisors(number: u32) -> Vec<u32> {
    let mut found = Vec::new();
    let mut trial = 1;
    while u64::from(trial) * u64::from(trial) <= u64::from(number) {
        if number.is_multiple_of(trial) {
            found.push(trial);
            found.push(number / trial);
        }
        trial += 1;
    }
    found
}

/// A vector divided by its greatest common divisor, and that divisor.
#[derive(Clone, Debug, PartialEq, Eq)]
pub struct Shortened {
    pub vector: Vec<i32>,
    pub divisor: u32,
}

/// Takes the greatest common divisor out of a vector. A zero vector has divisor 0 and stays zero.
pub fn shorten(vector: &[i32]) -> Shortened {
    let divisor = greatest_common_divisor(vector);
    let quotient = |&word: &i32| match divisor {
        0 => word,
        _ => (i64::from(word) / i64::from(divisor)) as i32,
    };
    Shortened {
        vector: vector.iter().map(quotient).collect(),
        divisor,
    }
}
