//! The runner of the conformance suite: see `tests/README.md` at the top of the repository.

pub mod arguments;
pub mod calls;
pub mod cases;
pub mod check;
pub mod layout;
pub mod lines;
pub mod notation;
