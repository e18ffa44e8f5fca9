//! A call by its names, as a child of this program is told it.

use crate::arrays;
use crate::load::Load;
use crate::sides::Side;
use crate::work::{Call, Work};

/// A program's call on an array, or one of the generated loads, ready to be done once; it answers its number.
pub fn call(side: &'static Side, name: &str, call: &str) -> Box<dyn FnMut() -> u32 + Send> {
    if let Some(mut load) = Load::named(name) {
        return Box::new(move || load.call(side));
    }
    let array = arrays::named(name).expect("the array has a name");
    let call = Call::named(call).expect("the call has a name");
    let mut work = Work::new(&array);
    work.prepare(call);
    Box::new(move || work.call(side, call))
}
