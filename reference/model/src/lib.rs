//! The second program: the breadcrumb catalogue as a plain machine on bags of fingerprints.
//!
//! It is written from documents 01 and 02 alone and for correctness alone. A bucket is decoded to
//! the list of its members, the bags are changed as the sentences say, and the bucket is encoded
//! again. Nothing here is fast.
//!
//! The machine:
//! - `shape`: lengths and the numbers of buckets
//! - `fingerprint`: front bucket, mini-bucket and tag of a hash
//! - `map`: from a front bucket to its two backyard buckets and back
//! - `bucket`: the members of a bucket from its 64 bytes and back
//! - `tail`: the total and the change count behind the buckets
//! - `calls`: the eight calls, the row of asks, the occupancy page, the tail and the moves
//! - `catalogue`: the calls with the packed answers of the C boundary
//! - `program`: the small program, lines to answers
//! - `occupancy`: the program that prints every occupancy page, and images stored for it
//!
//! What tries others against it:
//! - `stored`: stored calls as lines of text, performed on three images
//! - `prepare`: plays lines, makes hashes and buckets
//! - `histories`: random histories
//! - `beside`: random rows of asks and occupancy pages beside them
//! - `cases`: the calls that are stored for the program `trial`
//! - `vectors`: calls of another model, replayed
//! - `branches`: the branches of the machine that a call takes
//! - `ledger`: what calls filed in each image, and its walks, for the tests
//! - `random`, `sha256`: small helpers

pub mod beside;
pub mod branches;
pub mod bucket;
pub mod calls;
pub mod cases;
pub mod catalogue;
pub mod fingerprint;
pub mod histories;
#[cfg(test)]
mod ledger;
pub mod map;
pub mod occupancy;
pub mod prepare;
pub mod program;
pub mod random;
pub mod sha256;
pub mod shape;
pub mod stored;
pub mod tail;
pub mod vectors;
