//! An independent model of the shim library.
//!
//! Everything here is written straight from documents 01 and 02, by pairs of
//! accesses over whole streams and by brute force, and shares nothing with the
//! proved code. It serves to derive expected outputs, and to be held against
//! the proved archive call by call: `calls` has the host's calls with their
//! buffers and the five numbers of an answer.

pub mod answer;
pub mod builtin;
pub mod calls;
pub mod compare;
pub mod drawing;
pub mod form;
pub mod image;
pub mod limits;
pub mod listing;
pub mod machine;
pub mod model;
pub mod placing;
pub mod random;
pub mod rule;
pub mod situation;
pub mod stream;
pub mod table;
pub mod text;
