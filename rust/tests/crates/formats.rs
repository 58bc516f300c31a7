//! How the texts of the formats are read and written: maps, scenarios, plan texts and certificates of versions 1 and 2,
//! and the numbers of their lines.
#[path = "formats/certificates.rs"]
mod certificates;
#[path = "formats/fields.rs"]
mod fields;
#[path = "formats/maps.rs"]
mod maps;
#[path = "formats/plans.rs"]
mod plans;
#[path = "formats/scenarios.rs"]
mod scenarios;
#[path = "formats/streams.rs"]
mod streams;
