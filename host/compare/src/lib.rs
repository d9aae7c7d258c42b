//! Holds the archive against the independent model, through the C border.
//!
//! `border` makes the C calls, with guard bytes around everything that they may
//! write. `held` makes each call on both sides and stops at the first
//! difference. `inputs` makes good, random and damaged input. `parts` says what
//! the gate and the soak try, with `drawings` for its part, and `fuzz` turns a
//! fuzzer's bytes into calls.

pub mod border;
pub mod drawings;
pub mod fuzz;
pub mod held;
pub mod inputs;
pub mod parts;
