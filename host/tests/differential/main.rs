//! The archive against the model: the same inputs to both, and every answer, output byte, record
//! and slot byte compared. Seeds are fixed, and each area counts what it has tried and asserts
//! that no case was missed. `THIMMOREL_LONG=1` makes each area twenty times as long.

#[path = "../common/mod.rs"]
mod common;
#[path = "../model/mod.rs"]
mod model;

mod archive;
mod area;
mod area_faults;
mod areas;
mod both;
mod damages;
mod draft;
mod faults;
mod landed;
mod moment;
mod older_compare;
mod older_draft;
mod older_faults;
mod tails;
mod tally;
mod written;

mod boards;
mod calls;
mod checks;
mod choices;
mod cuts;
mod damage;
mod driven;
mod from_c;
mod installs;
mod loader_damage;
mod loader_edges;
mod loader_wrapper;
mod loaders;
mod masks;
mod older;
mod older_damage;
mod older_edges;
mod older_keys;
mod older_lengths;
mod older_wrapper;
mod one_code;
mod records;
mod sessions;
mod sig_fields;
mod signing;
mod wrapper;
mod writers;
