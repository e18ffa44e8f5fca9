//! Pipes, and where each process stands on them: soak and drain.

use crate::geometry::Array;
use crate::vectors::{dot, times, Point};

/// A line of processes along the move of a stream.
#[derive(Clone, Debug)]
pub struct Pipe {
    pub stream: usize,
    /// The processes from the entry on.
    pub processes: Vec<usize>,
    /// The elements in pipe order, each by its number in element order.
    pub elements: Vec<usize>,
    /// Where its part of the waiting and received lists begins.
    pub start: usize,
}

/// A process on a pipe.
#[derive(Clone, Debug)]
pub struct Station {
    pub pipe: usize,
    /// Its position on the pipe, 0 at the entry.
    pub position: usize,
    /// The pipe's elements before the first that the process uses; all of them if it is null.
    pub soak: usize,
    /// The pipe's elements after the last that the process uses; 0 if it is null.
    pub drain: usize,
    /// The element that each firing uses.
    pub uses: Vec<usize>,
}

/// The pipes by stream, then entry in row order.
pub fn pipes(array: &Array) -> Vec<Pipe> {
    let points: Vec<Point> = array
        .processes
        .iter()
        .map(|process| process.point.clone())
        .collect();
    let mut pipes = Vec::new();
    let mut start = 0;
    for (number, stream) in array.streams.iter().enumerate() {
        for processes in lines_of_processes(&points, &stream.travel) {
            if processes
                .iter()
                .all(|&process| array.processes[process].null())
            {
                continue;
            }
            let elements = pipe_elements(array, number, &processes);
            let length = elements.len();
            pipes.push(Pipe {
                stream: number,
                processes,
                elements,
                start,
            });
            start += length;
        }
    }
    pipes
}

/// Every line of processes along a move. It enters at the point whose predecessor lies outside
/// the process space.
fn lines_of_processes(points: &[Point], travel: &Point) -> Vec<Vec<usize>> {
    let moved = |point: &Point, sign: i32| -> Point {
        point
            .iter()
            .zip(travel)
            .map(|(word, part)| word + sign * part)
            .collect()
    };
    let mut lines = Vec::new();
    for (entry, point) in points.iter().enumerate() {
        if points.binary_search(&moved(point, -1)).is_ok() {
            continue;
        }
        let mut line = vec![entry];
        let mut next = moved(point, 1);
        while let Ok(number) = points.binary_search(&next) {
            line.push(number);
            next = moved(&next, 1);
        }
        lines.push(line);
    }
    lines
}

/// The elements that the processes of a pipe use, in the order of the pipe. Those of a moving
/// stream go in the order of index map times increment, those of a stationary one in the order in
/// which the pipe passes the processes that hold them.
fn pipe_elements(array: &Array, number: usize, processes: &[usize]) -> Vec<usize> {
    let stream = &array.streams[number];
    let mut elements = Vec::new();
    for &process in processes {
        for instance in &array.processes[process].instances {
            let element = array.element(number, instance);
            if !elements.contains(&element) {
                elements.push(element);
            }
        }
    }
    if stream.moving {
        let way = times(&array.description.maps[number], &array.increment);
        elements.sort_by_key(|element| dot(&way, &stream.elements[element - stream.start]));
    }
    elements
}

/// By process and stream, where the process stands on its pipe.
pub fn stations(array: &Array) -> Vec<Vec<Option<Station>>> {
    let mut stations = vec![vec![None; array.streams.len()]; array.processes.len()];
    for (number, pipe) in array.pipes.iter().enumerate() {
        for (position, &process) in pipe.processes.iter().enumerate() {
            let uses: Vec<usize> = array.processes[process]
                .instances
                .iter()
                .map(|instance| array.element(pipe.stream, instance))
                .collect();
            stations[process][pipe.stream] = Some(Station {
                pipe: number,
                position,
                soak: unused(pipe.elements.iter(), &uses),
                drain: if uses.is_empty() {
                    0
                } else {
                    unused(pipe.elements.iter().rev(), &uses)
                },
                uses,
            });
        }
    }
    stations
}

/// How many elements come before the first that is used.
fn unused<'a>(elements: impl Iterator<Item = &'a usize>, uses: &[usize]) -> usize {
    elements
        .take_while(|element| !uses.contains(element))
        .count()
}
