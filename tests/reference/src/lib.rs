//! An independent implementation of the board rules, written from the paper alone, and what
//! is needed to hold the auditor against it: boards made from a seed, sound and faulty, and
//! a comparison word by word over the C interface.
//!
//! The rules: `sha256`, `sha512`, `curves`, `format`, `sets`, `audit`, `compare`, `ancestry`, `receipts`, `notes`,
//! `planning`, `program`.
//! The boards: `random`, `plan`, `roll`, `sound`, `crowded`, `faults`, `damage`, `collisions`; receipts for them: `presented`;
//! notes: `noted`.
//! The checks: `interface`, `header`, `stand_in`, `told`, `closed`, `opened`, `enrolled`, `contests`, `zeros`, `answered`,
//! `held`, `planned`, `reached`, `hidden`, `cuts`, `noted_cuts`, `calls`, `checks`, `stored`, `comparisons`, `receipt_files`, `note_files`,
//! `plan_files`.

pub mod ancestry;
pub mod answered;
pub mod audit;
pub mod calls;
pub mod checks;
pub mod closed;
pub mod collisions;
pub mod compare;
pub mod comparisons;
pub mod contests;
pub mod crowded;
pub mod curves;
pub mod cuts;
pub mod damage;
pub mod enrolled;
pub mod faults;
pub mod format;
pub mod header;
pub mod held;
pub mod hidden;
pub mod interface;
pub mod note_files;
pub mod noted;
pub mod noted_cuts;
pub mod notes;
pub mod opened;
pub mod plan;
pub mod plan_files;
pub mod planned;
pub mod planning;
pub mod presented;
pub mod program;
pub mod random;
pub mod reached;
pub mod receipt_files;
pub mod receipts;
pub mod roll;
pub mod sets;
pub mod sha256;
pub mod sha512;
pub mod sound;
pub mod stand_in;
pub mod stored;
pub mod told;
pub mod zeros;
