//! What the driver asks of the rest of ch32-hal: the peripheral, interrupts, clocks, chip number.
//! The port leaves these to the board; here they are noted beside the records.
use std::marker::PhantomData;

pub trait PeripheralType {}

pub trait RccPeripheral {
    fn enable_and_reset();
    fn disable();
}

pub struct Peri<'d, T: PeripheralType> {
    _inner: T,
    _lifetime: PhantomData<&'d mut T>,
}

impl<T: PeripheralType> Peri<'_, T> {
    pub fn new(inner: T) -> Self {
        Self { _inner: inner, _lifetime: PhantomData }
    }
}

pub mod peripherals {
    pub struct USBSS;

    impl super::PeripheralType for USBSS {}

    impl super::RccPeripheral for USBSS {
        fn enable_and_reset() {
            record::aside("clock on, block reset".into());
        }

        fn disable() {
            record::aside("clock off".into());
        }
    }
}

pub mod interrupt {
    pub mod typelevel {
        pub trait Interrupt {
            const NAME: &'static str;

            fn unpend() {
                record::aside(format!("{} unpend", Self::NAME));
            }

            /// # Safety
            /// None is needed here.
            unsafe fn enable() {
                record::aside(format!("{} enable", Self::NAME));
            }

            fn disable() {
                record::aside(format!("{} disable", Self::NAME));
            }
        }

        pub trait Handler<I: Interrupt> {
            /// # Safety
            /// For the caller that it is called as an interrupt.
            unsafe fn on_interrupt();
        }

        /// # Safety
        /// None is needed here.
        pub unsafe trait Binding<I: Interrupt, H: Handler<I>> {}
    }
}

#[allow(non_snake_case)]
pub mod _generated {
    pub mod peripheral_interrupts {
        pub mod USBSS {
            use crate::interrupt::typelevel::Interrupt;

            pub struct GLOBAL;
            pub struct LINK;

            impl Interrupt for GLOBAL {
                const NAME: &'static str = "GLOBAL";
            }

            impl Interrupt for LINK {
                const NAME: &'static str = "LINK";
            }
        }
    }
}

pub mod rcc {
    pub fn enable_usbss_pll(_reference: crate::pac::rcc::vals::UsbsspllRefsel) {
        record::aside("PLL on".into());
    }
}

pub mod signature {
    pub struct ChipId;

    pub fn chip_id() -> ChipId {
        ChipId
    }

    impl ChipId {
        /// Bits 7 to 4 are the silicon revision; the others are set, to see that they don't count.
        pub fn dev_id(&self) -> u16 {
            0xff0f | u16::from(record::revision()) << 4
        }
    }
}

/// Binds both interrupts.
pub struct Irqs;

use crate::usbss::{InterruptHandler, LinkInterruptHandler};
use _generated::peripheral_interrupts::USBSS::{GLOBAL, LINK};

unsafe impl interrupt::typelevel::Binding<GLOBAL, InterruptHandler<peripherals::USBSS>> for Irqs {}
unsafe impl interrupt::typelevel::Binding<LINK, LinkInterruptHandler<peripherals::USBSS>> for Irqs {}
