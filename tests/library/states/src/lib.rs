//! What the library is asked and what the model answers, with the day, every word of every record
//! and every word of the page list, or of a run's tables, or with every byte and row that mending is
//! lent. The library itself is linked to the binary alone.

pub mod bytes;
pub mod damage;
pub mod differences;
pub mod mends;
pub mod reached;
pub mod record;
pub mod requests;
pub mod runs;
pub mod state;
pub mod wanted;
