//! The proved shape check, called in the static library that the toolchain builds.
//!
//! A slice crosses as a pointer and then a length. Nothing but this file holds the declaration to
//! the proved source: `Node` and `Answer` have to have the same fields in the same order there.

use crate::plain::{Fault, Node};

/// The number of the refusal and the faulty position; both 0 where the batch is accepted.
#[repr(C)]
struct Answer {
    number: u8,
    at: usize,
}

unsafe extern "C" {
    fn table_check_shape(nodes: *const Node, length: usize) -> Answer;
}

pub fn check_shape(nodes: &[Node]) -> Result<(), Fault> {
    // SAFETY: the pointer and the length are those of a slice, the function only reads it, and it
    // asks nothing of what the nodes hold.
    let answer = unsafe { table_check_shape(nodes.as_ptr(), nodes.len()) };
    match answer.number {
        0 => Ok(()),
        1 => Err(Fault::Length),
        2 => Err(Fault::Layout(answer.at)),
        3 => Err(Fault::Word(answer.at)),
        4 => Err(Fault::Depth(answer.at)),
        number => unreachable!("the check has no refusal {number}"),
    }
}
