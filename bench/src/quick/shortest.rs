//! The shortest vector that a matrix sends to zero.

use super::boxes::dot;
use super::demand;
use super::description::{Matrix, Vector};

/// That vector, which may be turned either way, and its divisor.
pub struct Shortest {
    pub vector: Vector,
    pub divisor: u32,
}

impl Shortest {
    /// The cross product of the rows without its divisor; declines by the number if the rank is too low.
    pub fn of([a, b]: &Matrix, rank: u32) -> Result<Shortest, u32> {
        let cross = [
            a[1] * b[2] - a[2] * b[1],
            a[2] * b[0] - a[0] * b[2],
            a[0] * b[1] - a[1] * b[0],
        ];
        let divisor = cross.into_iter().fold(0, common_divisor);
        demand(divisor != 0, rank)?;
        Ok(Shortest {
            vector: cross.map(|word| word / divisor),
            divisor: divisor as u32,
        })
    }

    /// Turned so that its step is positive; declines by the number if that is 0.
    pub fn turned(mut self, step: Vector, still: u32) -> Result<Shortest, u32> {
        let sum = dot(step, self.vector);
        demand(sum != 0, still)?;
        if sum < 0 {
            self.vector = self.vector.map(|word| -word);
        }
        Ok(self)
    }
}

fn common_divisor(a: i32, b: i32) -> i32 {
    if b == 0 {
        a.abs()
    } else {
        common_divisor(b, a % b)
    }
}
