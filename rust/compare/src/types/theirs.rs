//! A caller of httparse.

use httparse as library;

#[path = "caller.rs"]
mod caller;
#[path = "interface.rs"]
mod interface;

pub use caller::{call, refused, usual as config};
#[cfg(test)]
pub use interface::name;
pub use interface::texts;
