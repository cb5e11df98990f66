//! The original and the host calls side by side.
//!
//! | module | what |
//! |---|---|
//! | [`days`] | the dates of the calendar in the original's date type |
//! | [`instants`] | instants and clock times in its types, and where its answers change |
//! | [`original`] | what the original answers to a question, in document 01's terms |
//! | [`zone`] | what the system's tz database answers |
//! | [`records`] | questions as the records of a file |
//! | [`portfolio`] | two lists of days, and what is lent with them |
//! | [`random`] | seeded numbers |
//! | [`walk`] | how far the original walks for an answer |
//! | [`rows`] | the questions, in rows: a new call is a new set of rows |
//! | [`run`] | puts the questions of rows to both sides |
//! | [`fuzz`] | puts any numbers and bytes to the host calls, with guarded slices |
//! | [`stored`] | writes answers for programs that replay them without Rust |
//! | [`cores`] | work in parts, on all cores |
//! | [`progress`] | how far a long run has come |
//! | [`options`] | `--name value` of the programs |

pub mod cores;
pub mod days;
pub mod fuzz;
pub mod instants;
pub mod options;
pub mod original;
pub mod portfolio;
pub mod progress;
pub mod random;
pub mod records;
pub mod rows;
pub mod run;
pub mod stored;
pub mod walk;
pub mod zone;
