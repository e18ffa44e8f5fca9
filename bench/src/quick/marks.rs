//! Refusal 17: whether the instances touch every element of a box.

use super::boxes::{Extent, Numbering};
use super::description::{Description, Vector};

/// The instances, and a mark for each element of a box.
pub struct Marks {
    left: Vector,
    right: Vector,
    instances: usize,
    marks: Vec<bool>,
}

impl Marks {
    pub fn new(description: &Description) -> Marks {
        Marks {
            left: description.left,
            right: description.right,
            instances: description.instances() as usize,
            marks: Vec::new(),
        }
    }

    /// Whether the instances touch every element of a box; it cannot be if there are fewer of them. In line it takes less time.
    #[inline(always)]
    pub fn fill(&mut self, extent: &Extent, numbering: &Numbering) -> bool {
        let size = extent.size() as usize;
        if size > self.instances {
            return false;
        }
        let Marks { left, right, .. } = *self;
        let marks = &mut self.marks;
        marks.clear();
        marks.resize(size, false);
        each_number(left, right, numbering, |number| marks[number] = true);
        marks.iter().all(|&marked| marked)
    }
}

/// The numbers of the points of all instances, counted on by the strides.
fn each_number(left: Vector, right: Vector, numbering: &Numbering, mut visit: impl FnMut(usize)) {
    let strides = numbering.strides.map(|stride| stride as usize);
    let mut outer = numbering.of(left);
    for _ in left[0]..=right[0] {
        let mut middle = outer;
        for _ in left[1]..=right[1] {
            let mut number = middle;
            for _ in left[2]..=right[2] {
                visit(number);
                number = number.wrapping_add(strides[2]);
            }
            middle = middle.wrapping_add(strides[1]);
        }
        outer = outer.wrapping_add(strides[0]);
    }
}
