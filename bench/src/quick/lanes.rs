//! The lanes of a stream: whole lines of processes along its move.

use super::description::Point;

/// A whole line of processes along the move of a stream.
#[derive(Clone, Copy)]
pub struct Lane {
    pub entry: usize,
    pub processes: usize,
    /// From the number of a process to that of the next one.
    pub stride: usize,
}

impl Lane {
    /// The process at a place of the lane.
    pub fn at(&self, place: usize) -> usize {
        self.entry.wrapping_add(place.wrapping_mul(self.stride))
    }

    pub fn numbers(self) -> impl Iterator<Item = usize> {
        (0..self.processes).map(move |place| self.at(place))
    }
}

/// From the number of a process to that of the next along a move.
pub fn stride(sides: Point, travel: Point) -> usize {
    (travel[0] * sides[1] + travel[1]) as usize
}

/// The lanes along a move by their entries in row order.
pub fn lanes(sides: Point, travel: Point) -> impl Iterator<Item = Lane> {
    let stride = stride(sides, travel);
    // The coordinate of an axis at which a lane enters, and how many processes it has from a coordinate on.
    let entry = move |axis: usize| match travel[axis] {
        0 => -1,
        1 => 0,
        _ => sides[axis] - 1,
    };
    let length = move |axis: usize, coordinate: i32| match travel[axis] {
        0 => i32::MAX,
        1 => sides[axis] - coordinate,
        _ => coordinate + 1,
    };
    (0..sides[0]).flat_map(move |row| {
        let columns = if row == entry(0) {
            0..sides[1]
        } else {
            entry(1).max(0)..entry(1) + 1
        };
        columns.map(move |column| Lane {
            entry: (row * sides[1] + column) as usize,
            processes: length(0, row).min(length(1, column)) as usize,
            stride,
        })
    })
}
