//! In the place of the host role: the probes, made public.
pub mod control {
    pub use crate::usbss::control::probe::{generation, pipe};
}

pub mod device {
    pub use crate::usbss::device::probe::{
        bus_reset, control, done, idle, lines, move_buffer, powered, raise, ready, restore, set_generation, snapshot, take_wakes,
        transfer, Snapshot,
    };
}

pub mod endpoint {
    pub use crate::usbss::endpoint::probe::{move_buffer, own, place, run};
}
