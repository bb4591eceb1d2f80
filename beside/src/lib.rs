//! The proved checker beside the model.
//!
//! `proved` calls the proved library, `modelled` gives the same answers by the model, and `plain` does once more, in
//! the quickest plain way, what is measured. `differential` compares them.

pub mod compare;
pub mod differential;
pub mod modelled;
pub mod piles;
pub mod plain;
pub mod proved;
pub mod script;
pub mod workloads;
