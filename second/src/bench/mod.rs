//! What the bench measures beside the proved search. The second program uses nothing of it.

pub mod answering;
pub mod berth;
pub mod bodies;
pub mod corpus;
pub mod cube;
pub mod fast;
pub mod float;
pub mod logged;
pub mod measure;
pub mod motion;
pub mod plain;
pub mod reading;
pub mod same;
pub mod stored;
pub mod table;
