//! The second implementation of documents 01 and 02, written from their words as plainly as possible.

pub mod board;
pub mod board_cases;
pub mod body;
pub mod calls;
pub mod compare;
pub mod description;
pub mod designs;
pub mod divisor;
pub mod divisor_cases;
pub mod examples;
pub mod expected;
pub mod fill_text;
pub mod generator;
pub mod geometry;
pub mod guard_words;
pub mod loads;
pub mod made_cases;
pub mod network;
pub mod pipes;
pub mod random;
pub mod random_board;
pub mod random_description;
pub mod random_divisor;
pub mod random_script;
pub mod random_stride;
pub mod replay;
mod rules;
pub mod step_vectors;
pub mod steps_text;
pub mod table;
pub mod vector_counts;
pub mod vectors;
pub mod walk;
pub mod walk_cases;
pub mod walk_text;
mod words;

use std::fmt;

/// The number by which a call declines.
#[derive(Clone, Copy, Debug, PartialEq, Eq, PartialOrd, Ord, Hash)]
pub struct Refusal(pub u32);

impl fmt::Display for Refusal {
    fn fmt(&self, f: &mut fmt::Formatter<'_>) -> fmt::Result {
        write!(f, "refused {}", self.0)
    }
}

/// Declines by the number unless the condition holds.
pub fn demand(condition: bool, number: u32) -> Result<(), Refusal> {
    if condition {
        Ok(())
    } else {
        Err(Refusal(number))
    }
}

/// The number by which an answer declines, 0 if it does not.
pub fn number_of<T>(answer: Result<T, Refusal>) -> u32 {
    answer.map_or_else(|refusal| refusal.0, |_| 0)
}
