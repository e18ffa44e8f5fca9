//! Step vectors (request 2.10): the vectors that are left are held against the increment and then against stream after stream; what no
//! step changes is looked at once.

use super::boxes::{dot, times, Extent};
use super::demand;
use super::description::{Description, Limits, Vector};
use super::marks::Marks;
use super::shortest::Shortest;

/// The counts: accepted, then refusals 1 to 17.
pub const COUNTS: usize = 18;

/// The greatest k.
const GREATEST: u32 = 3;

/// As many vectors as there are for it in three loops.
const MOST: usize = 343;

/// How many step vectors with entries from −k to k get each answer of Accept; declines by 33, 34 and 1 to 7.
pub fn count(board: u32, bytes: &[u8], k: u32) -> Result<[u32; COUNTS], u32> {
    let limits = Limits::of(board)?;
    demand(k <= GREATEST, 34)?;
    let description = Description::read(bytes)?;
    demand(description.instances() <= limits.instances, 6)?;
    let increment = Shortest::of(&description.place, 7)?;
    let mut tally = Tally {
        left: vectors(description.loops, k as i32),
        counts: [0; COUNTS],
    };
    tally.judge(|step| match dot(step, increment.vector) {
        0 => 8,
        _ => 0,
    });
    let last = tally.judge_array(&description, &limits);
    tally.counts[last as usize] += tally.left.len() as u32;
    Ok(tally.counts)
}

/// The vectors; the third entry is 0 for two loops.
fn vectors(loops: usize, k: i32) -> Vec<Vector> {
    let third = if loops == 3 { k } else { 0 };
    let mut vectors = Vec::with_capacity(MOST);
    for a in -k..=k {
        for b in -k..=k {
            vectors.extend((-third..=third).map(|c| [a, b, c]));
        }
    }
    vectors
}

/// The vectors that are not refused yet, and the counts of the others.
struct Tally {
    left: Vec<Vector>,
    counts: [u32; COUNTS],
}

impl Tally {
    /// Counts and takes out the vectors that get an answer other than 0.
    fn judge(&mut self, answer: impl Fn(Vector) -> usize) {
        let counts = &mut self.counts;
        self.left.retain(|&step| {
            let answer = answer(step);
            counts[answer] += u32::from(answer != 0);
            answer == 0
        });
    }

    /// Judges the vectors by the process space and by the streams; the answer of all that are left.
    fn judge_array(&mut self, description: &Description, limits: &Limits) -> u32 {
        let space = Extent::of(&description.place, description.left, description.right);
        if space.size() > limits.processes {
            return 10;
        }
        let mut marks = Marks::new(description);
        for number in 0..description.streams {
            if self.left.is_empty() {
                break;
            }
            if let Err(last) = self.judge_stream(description, number, limits, &mut marks) {
                return last;
            }
        }
        0
    }

    /// Judges the vectors by a stream; its answer, if all that are left get the same.
    fn judge_stream(
        &mut self,
        description: &Description,
        number: usize,
        limits: &Limits,
        marks: &mut Marks,
    ) -> Result<(), u32> {
        let map = &description.maps[number];
        let line = Shortest::of(map, 11)?.vector;
        let travel = times(&description.place, line);
        let wide = travel.iter().any(|word| word.abs() > 1);
        let moving = travel != [0, 0];
        let hop = if moving { limits.hop } else { i32::MAX };
        let written = description.body.writes(number);
        // The line is turned if its step is negative.
        let against = description.against(line);
        self.judge(|step| match dot(step, line) {
            0 => 12,
            _ if wide => 13,
            sum if sum.abs() > hop => 14,
            sum if written && (sum > 0) == against => 15,
            _ => 0,
        });
        if self.left.is_empty() {
            return Ok(());
        }
        let loaded = description.loading[number] != [0, 0];
        demand(moving != loaded, 16)?;
        let extent = Extent::of(map, description.left, description.right);
        demand(marks.fill(&extent, &extent.numbering(map)), 17)
    }
}
