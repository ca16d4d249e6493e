//! EVT logs: their parts, a file as the Windows service writes it, and damage.

mod damage;
mod event;
mod generate;
mod parts;
mod service;

pub use damage::*;
pub use event::Event;
pub use generate::*;
pub use parts::*;
pub use service::{Kept, Service};
