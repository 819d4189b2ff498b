//! What the comparison and the fuzz run share: the calls, makers of inputs, and the count of what was compared.

#![forbid(unsafe_code)]

pub mod calls;
pub mod kept;
pub mod make;
pub mod queries;
pub mod sheets;
pub mod tally;
pub mod weights;
