//! The nest: loops with their layout, and the streams on it. Refusals 6 to 17.

use super::boxes::{dot, times, Extent, Numbering};
use super::demand;
use super::description::{Description, Limits, Matrix, Point, Vector};
use super::marks::Marks;
use super::shortest::Shortest;

/// What follows from a stream's index map and loading vector.
pub struct Stream {
    pub map: Matrix,
    pub divisor: u32,
    pub moving: bool,
    /// Document 01's move, or the loading vector.
    pub travel: Point,
    pub hop: u32,
    /// Its box.
    pub extent: Extent,
    /// Numbers in its box.
    pub numbering: Numbering,
    /// The number of its first element in element order.
    pub start: usize,
}

/// A description that is accepted, with everything that its processes and streams have in common.
pub struct Nest {
    pub description: Description,
    pub instances: usize,
    pub increment: Vector,
    /// The divisor of place.
    pub divisor: u32,
    /// The process space.
    pub space: Extent,
    /// Numbers of processes.
    pub numbering: Numbering,
    pub streams: Vec<Stream>,
    /// E.
    pub elements: usize,
}

impl Nest {
    /// Declines by 33, then by 1 to 17.
    pub fn of(board: u32, bytes: &[u8]) -> Result<Nest, u32> {
        let limits = Limits::of(board)?;
        let description = Description::read(bytes)?;
        let instances = description.instances();
        demand(instances <= limits.instances, 6)?;
        let increment = Shortest::of(&description.place, 7)?.turned(description.step, 8)?;
        let space = Extent::of(&description.place, description.left, description.right);
        demand(space.size() <= limits.processes, 10)?;
        let mut nest = Nest {
            instances: instances as usize,
            increment: increment.vector,
            divisor: increment.divisor,
            space,
            numbering: space.numbering(&description.place),
            streams: Vec::with_capacity(description.streams),
            elements: 0,
            description,
        };
        let mut marks = Marks::new(&nest.description);
        for number in 0..nest.description.streams {
            let stream = nest.stream(number, &limits, &mut marks)?;
            nest.elements += stream.extent.size() as usize;
            nest.streams.push(stream);
        }
        Ok(nest)
    }

    /// Declines by 11 to 17.
    fn stream(&self, number: usize, limits: &Limits, marks: &mut Marks) -> Result<Stream, u32> {
        let description = &self.description;
        let map = description.maps[number];
        let line = Shortest::of(&map, 11)?.turned(description.step, 12)?;
        let travel = times(&description.place, line.vector);
        demand(travel.iter().all(|word| word.abs() <= 1), 13)?;
        let moving = travel != [0, 0];
        let hop = dot(description.step, line.vector);
        demand(!moving || hop <= limits.hop, 14)?;
        let against = description.body.writes(number) && description.against(line.vector);
        demand(!against, 15)?;
        let loading = description.loading[number];
        demand(moving == (loading == [0, 0]), 16)?;
        let extent = Extent::of(&map, description.left, description.right);
        let numbering = extent.numbering(&map);
        demand(marks.fill(&extent, &numbering), 17)?;
        Ok(Stream {
            map,
            divisor: line.divisor,
            moving,
            travel: if moving { travel } else { loading },
            hop: if moving { hop as u32 } else { 1 },
            extent,
            numbering,
            start: self.elements,
        })
    }
}
