//! Another engine beside this program's own on states and buffers that no
//! journal reaches: both get the same words, bytes and numbers, and have to
//! answer the same and to leave the same.

mod aim;
pub(crate) mod buffers;
mod draws;
pub mod fabricate;
pub mod met;
mod on_buffers;
mod on_states;
pub mod spoil;
mod tried;

pub use on_states::same_look;

use std::fmt::Debug;
use std::ops::Range;

use crate::engine::Engine;
use crate::random::Random;

use met::Met;
use on_buffers::{meet_at_reading, meet_at_writing};
use on_states::meet_on_state;

/// Has both engines meet on the state and the buffers of each seed, and counts
/// what they meet. The first difference is told.
pub fn meet(proved: &dyn Engine, seeds: Range<u64>, met: &mut Met) -> Result<(), String> {
    for seed in seeds {
        let mut random = Random::new(seed);
        meet_on_state(proved, &mut random, met)
            .and_then(|()| meet_at_writing(proved, &mut random, met))
            .and_then(|()| meet_at_reading(proved, &mut random, met))
            .map_err(|what| format!("seed {seed}: {what}"))?;
    }
    Ok(())
}

/// Says that two things differ, if they do.
fn same<T: PartialEq + Debug>(what: &str, proved: T, safe: T) -> Result<(), String> {
    if proved == safe {
        return Ok(());
    }
    Err(format!(
        "{what} is {proved:?} in the proved engine and {safe:?} in the safe one"
    ))
}

/// Says which item of two lists is the first that differs, if any.
fn same_items<T: PartialEq + Debug>(what: &str, proved: &[T], safe: &[T]) -> Result<(), String> {
    let mut pairs = proved.iter().zip(safe);
    match pairs.position(|(proved, safe)| proved != safe) {
        Some(at) => same(&format!("{what} {at}"), &proved[at], &safe[at]),
        None => Ok(()),
    }
}
