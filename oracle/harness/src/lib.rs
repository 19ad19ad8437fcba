//! The oracle: the original Rust linker as a judge, a model of the specification beside it, and the
//! machinery that compares them.

pub mod before;
pub mod buckets;
pub mod case;
pub mod class_files;
pub mod compare;
pub mod corpus;
pub mod demand3;
pub mod drive;
pub mod forms;
pub mod generate;
pub mod kept;
pub mod listings;
pub mod names;
pub mod numbered;
pub mod oracle;
pub mod orders;
pub mod packages;
pub mod random;
pub mod readings;
pub mod references;
pub mod sheet;
pub mod shrink;
pub mod telling;
pub mod writings;

pub use model;
pub use model::side;
