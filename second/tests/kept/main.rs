//! Kept nodes: request [2] of document 02.

mod any;
mod causes;
mod down;
mod keeping;
mod roots;
mod search;
