//! Vectors, and the boxes around the values of a matrix with the numbers of their points.

use super::description::{Matrix, Point, Vector};

pub fn dot(a: Vector, b: Vector) -> i32 {
    a[0] * b[0] + a[1] * b[1] + a[2] * b[2]
}

pub fn times(matrix: &Matrix, vector: Vector) -> Point {
    matrix.map(|row| dot(row, vector))
}

/// The smallest box around the values of a matrix on the instances.
#[derive(Clone, Copy)]
pub struct Extent {
    pub low: Point,
    pub sides: Point,
}

impl Extent {
    /// A row is least where each index has the bound that the sign of its word asks for.
    pub fn of(matrix: &Matrix, left: Vector, right: Vector) -> Extent {
        let mut extent = Extent {
            low: [0; 2],
            sides: [1; 2],
        };
        for (axis, row) in matrix.iter().enumerate() {
            for (number, &word) in row.iter().enumerate() {
                let least = if word >= 0 { left } else { right };
                extent.low[axis] += word * least[number];
                extent.sides[axis] += word.abs() * (right[number] - left[number]);
            }
        }
        extent
    }

    pub fn size(&self) -> i32 {
        self.sides[0] * self.sides[1]
    }

    /// How the points that a matrix sends instances to are numbered in row order.
    pub fn numbering(&self, matrix: &Matrix) -> Numbering {
        let [rows, columns] = matrix;
        Numbering {
            base: -(self.low[0] * self.sides[1] + self.low[1]),
            strides: [0, 1, 2].map(|number| rows[number] * self.sides[1] + columns[number]),
        }
    }

    /// How often a vector can be added to a point before it leaves the box.
    pub fn room(&self, point: Point, vector: Point) -> i32 {
        let axis = |axis: usize| {
            let before = point[axis] - self.low[axis];
            match vector[axis] {
                0 => i32::MAX,
                word if word > 0 => (self.sides[axis] - 1 - before) / word,
                word => before / -word,
            }
        };
        axis(0).min(axis(1))
    }
}

/// The number of an instance's point: a base and a stride for each index.
#[derive(Clone, Copy)]
pub struct Numbering {
    pub base: i32,
    pub strides: Vector,
}

impl Numbering {
    pub fn of(&self, instance: Vector) -> usize {
        (self.base + dot(self.strides, instance)) as usize
    }
}
