//! The rows of the table in `command`.

pub mod abmeldung;
pub mod berlin;
pub mod fragen;
pub mod fristen;
pub mod kalender;
pub mod portfolio;
pub mod vorlauf;
