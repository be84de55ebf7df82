//! A weighing terminal: gauges on banks, joined by junction boxes, read by
//! up to 32 scales that answer commands on one line.

#![forbid(unsafe_code)]

pub mod answer;
pub mod bank;
pub mod command;
pub mod dials;
pub mod fault;
pub mod format;
pub mod hall;
pub mod junction;
pub mod number;
pub mod platform;
pub mod recording;
pub mod scale;
pub mod settings;
pub mod terminal;
pub mod text;

pub use bank::{Bank, Reading};
pub use command::split;
pub use dials::Dials;
pub use fault::{Cause, Fault};
pub use junction::JunctionBox;
pub use platform::Platform;
pub use recording::{Record, Recording};
pub use terminal::{Obeyed, Served, Stop, Terminal, LONGEST_ANSWER};
