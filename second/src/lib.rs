//! The second program: it shares no code with the proved one, so that the two can be compared.

pub mod answer_file;
pub mod bench;
pub mod beside;
pub mod bodies;
pub mod edition;
pub mod file;
pub mod gap;
pub mod gen;
pub mod record;
pub mod refusals;
pub mod rng;
pub mod script;
pub mod search;
pub mod text;
pub mod told;
pub mod why;
