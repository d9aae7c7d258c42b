//! The model held against document 01 and against itself done another way.

mod common;
mod demands;
mod drawings;
mod images;
mod lists;
mod machines;
mod program;
mod streams;
mod texts;
