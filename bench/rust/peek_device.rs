//! Behind device.rs: its private functions that are counted, and the state, set back between calls.
use super::{on_interrupt, state, Bus, Inner, Phase, POWER, RESET};
use crate::pac::{BLOCK, BLOCK_BYTES};
use crate::peripherals::USBSS;

fn with<R>(f: impl FnOnce(&mut Inner) -> R) -> R {
    state::<USBSS>().inner.lock(|inner| f(&mut inner.borrow_mut()))
}

/// The state and the registers as they stood.
pub struct Kept(Inner, [u8; BLOCK_BYTES]);

pub fn keep() -> Kept {
    // All of it is plain values.
    with(|inner| unsafe { Kept(std::ptr::read(inner), std::ptr::read(BLOCK as *const _)) })
}

pub fn put_back(kept: &Kept) {
    with(|inner| unsafe {
        std::ptr::copy(&kept.0, inner, 1);
        std::ptr::write(BLOCK as *mut _, kept.1);
    });
}

pub const STATE_BYTES: usize = size_of::<Inner>();

/// The end of a chain by itself, without the interrupt around it.
#[inline(never)]
pub fn report(index: usize, incoming: bool) {
    with(|inner| inner.data_irq(index, incoming));
}

/// The handler of an interrupt.
#[inline(never)]
pub fn interrupt() {
    unsafe { on_interrupt::<USBSS>() }
}

#[inline(never)]
pub fn bus_reset() {
    with(|inner| inner.bus_reset());
}

#[inline(never)]
pub fn raise(event: u8) {
    with(|inner| inner.raise(event));
}

#[inline(never)]
pub fn power_on(bus: &mut Bus<'_, USBSS>) {
    bus.power_on();
}

#[inline(never)]
pub fn power_off(bus: &mut Bus<'_, USBSS>) {
    bus.power_off();
}

pub const RESET_EVENT: u8 = RESET;

pub fn set_events(reset: bool) {
    with(|inner| inner.events = if reset { POWER | RESET } else { POWER });
}

/// The pending events: power, reset.
pub fn events() -> (bool, bool) {
    with(|inner| (inner.events & POWER != 0, inner.events & RESET != 0))
}

/// Whether a SETUP waits, and how many the control transfers so far are.
pub fn setup() -> (bool, u32) {
    with(|inner| (inner.setup.is_some(), inner.control_generation))
}

pub fn powered() -> bool {
    with(|inner| inner.powered)
}

/// How many slots are configured.
pub fn configured() -> usize {
    with(|inner| inner.endpoints.iter().filter(|slot| slot.config.is_some()).count())
}

/// A slot: enabled, stalled, 0 idle or 1 busy or 2 done, progress.
pub fn slot(number: usize) -> (bool, bool, u8, usize) {
    with(|inner| {
        let slot = &inner.endpoints[number];
        let phase = match slot.phase {
            Phase::Idle => 0,
            Phase::Busy => 1,
            Phase::Done => 2,
        };
        (slot.enabled, slot.stalled, phase, slot.transfer.progress)
    })
}
