//! Values of the types that the calls share: of devices, of plan texts and certificates, and of the dispatcher.
#[path = "values/devices.rs"]
mod devices;
#[path = "values/following.rs"]
mod following;
#[path = "values/texts.rs"]
mod texts;
