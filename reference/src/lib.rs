//! Plain second implementation of time-frame folding, written from the format's description alone.
//!
//! It is meant to be read and believed, not to be fast: each function follows the words of the
//! description, and the comparison tests hold the proved library to it. It never calls that library.
//!
//! Every call models the caller's memory: it changes the slices it is given exactly as described
//! and returns a number and a place.
//!
//! The tests and benchmarks link the proved library, see `bindings/rust/build.rs`. A comparison that
//! fails names its seed, and `TFF_SEED=<seed> cargo test --release` runs that seed alone.

pub mod answer;
pub mod circuit;
pub mod diagrams;
pub mod distinguish;
pub mod examples;
pub mod fold;
pub mod gates;
pub mod gen;
pub mod merge;
pub mod nodes;
pub mod plain_fold;
pub mod plain_merge;
pub mod plan;
pub mod prefix;
pub mod price;
pub mod program;
pub mod quiet;
pub mod reach;
pub mod response;
pub mod sizes;
pub mod spread;
pub mod table;
pub mod unfold;
pub mod vectors;
pub mod view;
pub mod words;

pub use answer::Answer;
pub use circuit::{check_circuit, simulate, Circuit};
pub use diagrams::fold_diagrams;
pub use distinguish::distinguish;
pub use fold::fold;
pub use gates::Gates;
pub use merge::{merge, Machine};
pub use nodes::{node_counts, nodes_needed, Node};
pub use plain_fold::plain_fold;
pub use plain_merge::plain_merge;
pub use plan::{ask, commit, Asked, Plan};
pub use price::{price, Priced};
pub use quiet::{quiet_step, QuietStepped};
pub use reach::reach;
pub use sizes::Sizes;
pub use spread::{spread, Schedule};
pub use table::{check_table, run, step, Position, Stepped, Table};
pub use unfold::unfold;
pub use view::{layer_outputs, view, LayerOutputs};
