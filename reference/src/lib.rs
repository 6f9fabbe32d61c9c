//! A second implementation of the 64-lane Knuth-Yao noise engine.
//!
//! It is written from the scope document, which the comments call 01, and from orders 1 to 10 of the
//! change requests, 02, and shares no code with the engine: what the engine must answer is found
//! here by another way wherever there is one. The sum T and every distance are numbers of any size,
//! rows come from one big division, and files are decoded into lists before anything else is done
//! with them.
//!
//! An operation here is a function of its inputs and of the lengths of what it is lent. It answers
//! what the operation answers together with the elements that it lays down at the front of what it
//! is lent, or the number of the refusal. Module [`lent`] has the same operations with the buffers
//! themselves, as the engine's callers know them.

pub mod compiler;
pub mod cumulative;
pub mod damage;
pub mod draws;
pub mod extremes;
pub mod lanes;
pub mod lent;
pub mod listing;
pub mod machine;
pub mod matrix;
pub mod natural;
pub mod pool;
pub mod pools;
pub mod program;
pub mod random;
pub mod record;
pub mod refusal;
pub mod tables;
pub mod vectors;
pub mod walk;
pub mod wanted;
pub mod weights;
pub mod wide;
