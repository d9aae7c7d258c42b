//! The limits of document 01, "Numbers and refusals" and "shimlist", and of
//! document 02.

pub const TEXT_BYTES: usize = 1_024;
pub const STREAM_OPERATIONS: usize = 4_096;
pub const SITUATIONS: usize = 4_096;
pub const STATES: usize = 255;
pub const IMAGE_BYTES: usize = 7_168;
pub const LIST_INPUT_BYTES: usize = 32_768;
pub const DRAWING_BYTES: usize = 262_144;

pub const MODEL_FENCES: usize = 16;
pub const NAME_BYTES: usize = 16;
