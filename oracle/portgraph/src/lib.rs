//! The published files under a module list of our own: theirs names modules
//! that were not published. `Direction` comes out of their lib.rs by build.rs.
#![allow(dead_code, unused_imports)]

include!(concat!(env!("OUT_DIR"), "/published/root.rs"));

pub use crate::index::{IndexError, NodeIndex, PortIndex, PortOffset};
pub use crate::portgraph::{LinkError, PortGraph};
pub use crate::view::{LinkMut, LinkView, MultiMut, MultiView, PortMut, PortView};
