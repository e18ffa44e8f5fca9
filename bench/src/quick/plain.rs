//! Plain run: the loops as written, loop 0 outermost.

use super::body::REGISTERS;
use super::description::STREAMS;
use super::nest::Nest;

/// Runs all instances on the values of the elements, in element order. The numbers of the elements that an instance touches are counted on
/// by the strides.
pub fn run(nest: &Nest, values: &mut [u32]) {
    let description = &nest.description;
    let (left, right) = (description.left, description.right);
    let from = [0, 1, 2].map(|number| match description.directions[number] {
        1 => left[number],
        _ => right[number],
    });
    let mut outer = [0; STREAMS];
    let mut strides = [[0; STREAMS]; 3];
    for (number, stream) in nest.streams.iter().enumerate() {
        outer[number] = stream.start + stream.numbering.of(from);
        for (index, direction) in description.directions.into_iter().enumerate() {
            strides[index][number] = (direction * stream.numbering.strides[index]) as usize;
        }
    }
    let mut instance = from;
    for _ in left[0]..=right[0] {
        let mut middle = outer;
        instance[1] = from[1];
        for _ in left[1]..=right[1] {
            let mut numbers = middle;
            instance[2] = from[2];
            for _ in left[2]..=right[2] {
                run_instance(nest, instance, &numbers, values);
                add(&mut numbers, &strides[2]);
                instance[2] += description.directions[2];
            }
            add(&mut middle, &strides[1]);
            instance[1] += description.directions[1];
        }
        add(&mut outer, &strides[0]);
        instance[0] += description.directions[0];
    }
}

fn run_instance(nest: &Nest, instance: [i32; 3], numbers: &[usize; STREAMS], values: &mut [u32]) {
    let numbers = &numbers[..nest.streams.len()];
    let mut registers = [0; REGISTERS];
    for (register, &number) in registers.iter_mut().zip(numbers) {
        *register = values[number];
    }
    nest.description.body.run(instance, &mut registers);
    for (&register, &number) in registers.iter().zip(numbers) {
        values[number] = register;
    }
}

fn add(numbers: &mut [usize; STREAMS], strides: &[usize; STREAMS]) {
    for (number, stride) in numbers.iter_mut().zip(strides) {
        *number = number.wrapping_add(*stride);
    }
}
