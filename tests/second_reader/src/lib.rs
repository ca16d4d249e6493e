//! The second reader of Windows XML event logs, and of the older EVT logs, with which
//! the first is compared. It is written from documents 01 and 02 and the published layouts alone
//! and shares nothing with the first reader.
#![forbid(unsafe_code)]

pub mod binxml;
pub mod calendar;
pub mod checksum;
pub mod evt;
pub mod evt_listing;
pub mod header;
pub mod index;
pub mod indexing;
pub mod listing;
pub mod numbers;
pub mod record;
pub mod stream;
pub mod text;
pub mod value;
