//! Words of the trade: instances, increment, processes, and the lines, moves, hops and elements of
//! streams. Refusals 6 to 17.

use crate::board::Limits;
use crate::description::{Description, Matrix};
use crate::divisor::Shortened;
use crate::pipes::{pipes, stations, Pipe, Station};
use crate::vectors::{dot, is_zero, number_in, shortest, times, within_one, Bounds, Point};
use crate::walk::walk;
use crate::{demand, Refusal};

/// Loops with their layout in time and place, whatever their streams are.
#[derive(Clone, Debug)]
pub struct Nest {
    pub description: Description,
    /// Instances in the order of the plain run.
    pub instances: Vec<Point>,
    /// The increment with the divisor of place.
    pub increment: Shortened,
    /// Processes in row order.
    pub processes: Vec<Process>,
}

/// An accepted description with everything that follows from it.
#[derive(Clone, Debug)]
pub struct Array {
    pub description: Description,
    /// Instances in the order of the plain run.
    pub instances: Vec<Point>,
    pub increment: Point,
    /// The divisor of place.
    pub divisor: u32,
    /// Processes in row order.
    pub processes: Vec<Process>,
    pub streams: Vec<Stream>,
    /// Pipes by stream, then entry in row order.
    pub pipes: Vec<Pipe>,
    /// By process and stream: where the process stands, if it is on a pipe of the stream.
    pub stations: Vec<Vec<Option<Station>>>,
}

/// A point of the process space.
#[derive(Clone, Debug)]
pub struct Process {
    pub point: Point,
    /// Its instances from least to greatest step; none if it is null.
    pub instances: Vec<Point>,
}

/// What follows from a stream's index map and loading vector.
#[derive(Clone, Debug)]
pub struct Stream {
    pub line: Point,
    /// The divisor of its index map.
    pub divisor: u32,
    pub moving: bool,
    /// Document 01's move; the loading vector if the stream is stationary.
    pub travel: Point,
    pub hop: usize,
    /// The elements of its box in row order.
    pub elements: Vec<Point>,
    /// The number of its first element in element order.
    pub start: usize,
}

impl Nest {
    /// Reads a description for the board that a word names; declines by 33, then by 1 to 10.
    pub fn on(board: u32, description: &[u8]) -> Result<Nest, Refusal> {
        let limits = Limits::of(board)?;
        Nest::of(&Description::read(description)?, &limits)
    }

    /// Works out the nest of a description; declines by 6 to 10.
    pub fn of(description: &Description, limits: &Limits) -> Result<Nest, Refusal> {
        demand(number_of_instances(description) <= limits.instances, 6)?;
        let increment = increment(description)?;
        let instances = instances(description);
        let processes = processes(description, &instances, limits)?;
        Ok(Nest {
            description: description.clone(),
            instances,
            increment,
            processes,
        })
    }
}

impl Array {
    /// Works out the array of a description; declines by 6 to 17.
    pub fn of(description: &Description, limits: &Limits) -> Result<Array, Refusal> {
        let nest = Nest::of(description, limits)?;
        let streams = streams(description, &walk(&nest), limits)?;
        let mut array = Array {
            description: nest.description,
            instances: nest.instances,
            increment: nest.increment.vector,
            divisor: nest.increment.divisor,
            processes: nest.processes,
            streams,
            pipes: Vec::new(),
            stations: Vec::new(),
        };
        array.pipes = pipes(&array);
        array.stations = stations(&array);
        Ok(array)
    }

    /// The number in element order of the element that an instance uses.
    pub fn element(&self, stream: usize, instance: &[i32]) -> usize {
        let element = times(&self.description.maps[stream], instance);
        let stream = &self.streams[stream];
        stream.start + number_in(&stream.elements, &element)
    }

    /// E, the number of elements over all streams.
    pub fn number_of_elements(&self) -> usize {
        self.streams
            .iter()
            .map(|stream| stream.elements.len())
            .sum()
    }

    /// The instances plus, for each pipe, twice its elements times one more than its processes.
    pub fn total_steps(&self) -> u64 {
        let moves = self
            .pipes
            .iter()
            .map(|pipe| 2 * pipe.elements.len() * (pipe.processes.len() + 1));
        (self.instances.len() + moves.sum::<usize>()) as u64
    }
}

// Instances.

/// The number of whole points in the bounds.
pub fn number_of_instances(description: &Description) -> i64 {
    let bounds = description.left.iter().zip(&description.right);
    bounds
        .map(|(&left, &right)| i64::from(right - left + 1))
        .product()
}

/// The instances in the order of the plain run: loop 0 outermost, each in its direction.
fn instances(description: &Description) -> Vec<Point> {
    let mut points = vec![Point::new()];
    for number in 0..description.loops() {
        let mut indices: Vec<i32> =
            (description.left[number]..=description.right[number]).collect();
        if description.directions[number] == -1 {
            indices.reverse();
        }
        let mut longer = Vec::new();
        for point in &points {
            for &index in &indices {
                longer.push([point.as_slice(), &[index]].concat());
            }
        }
        points = longer;
    }
    points
}

// Increment.

/// The increment with the divisor of place; declines by 7 and 8.
fn increment(description: &Description) -> Result<Shortened, Refusal> {
    shortest(&description.place, &description.step, 7, 8)
}

// Processes.

/// The process space in row order, each process with its instances by step; declines by 10.
fn processes(
    description: &Description,
    instances: &[Point],
    limits: &Limits,
) -> Result<Vec<Process>, Refusal> {
    let places: Vec<Point> = instances
        .iter()
        .map(|instance| times(&description.place, instance))
        .collect();
    let space = Bounds::around(&places);
    demand(space.size() <= limits.processes, 10)?;
    let points: Vec<Point> = space.points().collect();
    let mut at: Vec<Vec<Point>> = vec![Vec::new(); points.len()];
    for (instance, place) in instances.iter().zip(&places) {
        at[number_in(&points, place)].push(instance.clone());
    }
    let process = |(point, mut instances): (Point, Vec<Point>)| {
        instances.sort_by_key(|instance| dot(&description.step, instance));
        Process { point, instances }
    };
    Ok(points.into_iter().zip(at).map(process).collect())
}

impl Process {
    /// The number of its instances.
    pub fn count(&self) -> usize {
        self.instances.len()
    }

    /// A process with no instance is null.
    pub fn null(&self) -> bool {
        self.instances.is_empty()
    }
}

// Streams.

/// The streams, lowest first, over the nest's walk; declines by 11 to 17.
pub fn streams(
    description: &Description,
    walk: &[Point],
    limits: &Limits,
) -> Result<Vec<Stream>, Refusal> {
    let mut streams = Vec::new();
    let mut start = 0;
    for number in 0..description.streams() {
        let mut stream = stream(description, number, limits)?;
        stream.elements = elements(&description.maps[number], walk)?;
        stream.start = start;
        start += stream.elements.len();
        streams.push(stream);
    }
    Ok(streams)
}

/// Line, divisor, move and hop of one stream; declines by 11 to 16.
fn stream(description: &Description, number: usize, limits: &Limits) -> Result<Stream, Refusal> {
    let short = shortest(&description.maps[number], &description.step, 11, 12)?;
    let line = short.vector;
    let travel = times(&description.place, &line);
    demand(within_one(&travel), 13)?;
    let moving = !is_zero(&travel);
    let hop = dot(&description.step, &line);
    demand(!moving || hop <= limits.hop, 14)?;
    demand(
        !description.written(number) || runs_on(description, &line),
        15,
    )?;
    let loading = &description.loading[number];
    demand(moving == is_zero(loading), 16)?;
    Ok(Stream {
        line,
        divisor: short.divisor,
        moving,
        travel: if moving { travel } else { loading.clone() },
        hop: if moving { hop as usize } else { 1 },
        elements: Vec::new(),
        start: 0,
    })
}

/// The first non-zero component of the line has the sign of that loop's direction.
fn runs_on(description: &Description, line: &[i32]) -> bool {
    let components = line.iter().zip(&description.directions);
    components
        .filter(|(&word, _)| word != 0)
        .map(|(&word, &direction)| word.signum() == direction)
        .next()
        .unwrap_or(false)
}

/// The elements of the box in row order; declines by 17 unless the walk touches every one.
fn elements(map: &Matrix, walk: &[Point]) -> Result<Vec<Point>, Refusal> {
    let used: Vec<Point> = walk.iter().map(|instance| times(map, instance)).collect();
    let bounds = Bounds::around(&used);
    let mut touched = vec![false; bounds.size() as usize];
    for element in &used {
        touched[bounds.number(element)] = true;
    }
    demand(touched.iter().all(|&it| it), 17)?;
    Ok(bounds.points().collect())
}
