//! The driver's own files, unchanged, over lean stand-ins: a register is a volatile cell, the lock is free, wakers,
//! clocks and interrupts do nothing, and nothing is recorded. `run` lays the driver's files beside this one.

// The crate stands in for the three that the driver names.
extern crate self as embassy_sync;
extern crate self as embassy_time;
extern crate self as embassy_usb_driver;

mod embassy;
mod usb_driver; // oracle/embassy_usb_driver
pub use embassy::*;
pub use usb_driver::*;

pub mod pac;

// Runs the one arm that `mod` has, for the one peripheral there is.
macro_rules! foreach_peripheral {
    (($kind:ident, $dollar:tt $name:ident : ident) => $code:tt;) => {
        macro_rules! with_peripheral {
            ($dollar $name:ident) => $code;
        }
        with_peripheral!(USBSS);
    };
}

#[allow(dead_code)] // the host role's
pub mod usbss;
mod internal {
    pub mod delay;
    pub mod drop;
}

pub trait PeripheralType {}
pub trait RccPeripheral {
    fn enable_and_reset() {}
    fn disable() {}
}
pub mod peripherals {
    pub struct USBSS;
    impl super::PeripheralType for USBSS {}
    impl super::RccPeripheral for USBSS {}
}

pub struct Peri<'d, T: PeripheralType>(core::marker::PhantomData<&'d mut T>);
impl<T: PeripheralType> Peri<'_, T> {
    /// Not as in the HAL: any number of them.
    pub fn another() -> Self {
        Self(core::marker::PhantomData)
    }
}

pub mod interrupt {
    pub mod typelevel {
        pub trait Interrupt {
            fn unpend() {}
            fn disable() {}
            /// # Safety
            /// None is needed here.
            unsafe fn enable() {}
        }
        pub trait Handler<I: Interrupt> {
            /// # Safety
            /// For the caller that it is called as an interrupt.
            unsafe fn on_interrupt();
        }
        /// # Safety
        /// None is needed here.
        pub unsafe trait Binding<I: Interrupt, H: Handler<I>> {}
    }
}

#[allow(non_snake_case)]
pub mod _generated {
    pub mod peripheral_interrupts {
        pub mod USBSS {
            use crate::interrupt::typelevel::Interrupt;
            pub struct GLOBAL;
            pub struct LINK;
            impl Interrupt for GLOBAL {}
            impl Interrupt for LINK {}
        }
    }
}

pub mod rcc {
    pub fn enable_usbss_pll(_: crate::pac::rcc::vals::UsbsspllRefsel) {}
}

pub mod signature {
    pub struct ChipId;
    pub fn chip_id() -> ChipId {
        ChipId
    }
    impl ChipId {
        /// Bits 7 to 4 are the silicon revision, here 3.
        pub fn dev_id(&self) -> u32 {
            3 << 4
        }
    }
}
