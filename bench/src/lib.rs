//! An independent implementation of `docs/REGISTER.md`: bytes in, entries and
//! text out.
//!
//! It goes by the words of that page. Its account keeps the list of its outcomes
//! and halves or doubles it, so it shares no walk and no array of places with
//! the proved register; the two meet in bytes and text alone.
//!
//! The files stand here in their order: each imports from those above it and
//! from no other, and so do the files of a folder, in the order of its `mod.rs`
//! (`tests/files.rs` checks it).

// The model: the register, and the probe's page. `rules` says how a version of
// the model does otherwise.
pub mod limits;
pub mod bytes;
pub mod event;
pub mod request;
pub mod outcomes;
pub mod message;
pub mod entry;
pub mod image;
pub mod words;
pub mod account;
pub mod order;
pub mod register;
pub mod run;
pub mod program;
pub mod probe;
pub mod exported;
pub mod live;
pub mod kept;
pub mod rules;

// The wrong versions of it.
pub mod fault;

// The comparison.
pub mod random;
pub mod subject;
pub mod streams;
pub mod document;
pub mod readable;
pub mod shrink;
pub mod tally;
pub mod reached;
pub mod compare;
pub mod report;

// The benchmark.
pub mod limit;
pub mod proved;
pub mod measure;
pub mod workload;
pub mod contention;
pub mod plot;
