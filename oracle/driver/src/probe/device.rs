//! Behind device.rs: the state's private parts.
use super::{state, EndpointType, Inner, Phase, State};
use crate::peripherals::USBSS;

fn own() -> &'static State {
    state::<USBSS>()
}

pub(in crate::usbss) fn with<R>(f: impl FnOnce(&mut Inner) -> R) -> R {
    own().inner.lock(|inner| f(&mut inner.borrow_mut()))
}

/// Moves the own buffer of a slot: allocation gives none below the 512 bytes of EP0.
pub fn move_buffer(slot: usize, address: usize) {
    with(|inner| inner.endpoints[slot].config.as_mut().unwrap().buffer.address = address);
}

/// The bus flag and the set of slots woken since the last call.
pub fn take_wakes() -> (bool, u16) {
    let mut slots = 0;
    for (slot, waker) in own().endpoint_wakers.iter().enumerate() {
        if waker.take_wakes() != 0 {
            slots |= 1 << slot;
        }
    }
    (own().bus_waker.take_wakes() != 0, slots)
}

pub fn raise(event: u8) {
    with(|inner| inner.raise(event));
}

pub fn bus_reset() {
    with(|inner| inner.bus_reset());
}

pub fn powered() -> bool {
    with(|inner| inner.powered)
}

/// Whether a transfer may begin there, but for one in hand.
pub fn ready(slot: usize) -> bool {
    with(|inner| inner.powered && inner.endpoints[slot].enabled && !inner.endpoints[slot].stalled)
}

pub fn idle(slot: usize) -> bool {
    with(|inner| inner.endpoints[slot].phase == Phase::Idle)
}

pub fn done(slot: usize) -> bool {
    with(|inner| inner.endpoints[slot].phase == Phase::Done)
}

/// A slot's transfer: address, length, progress, flag.
pub fn transfer(slot: usize) -> (usize, usize, usize, bool) {
    with(|inner| {
        let transfer = inner.endpoints[slot].transfer;
        (transfer.address, transfer.length, transfer.progress, transfer.zlp)
    })
}

/// Where EP0's bytes lie (0 before the first start), and the generation.
pub fn control() -> (usize, u32) {
    with(|inner| (inner.ep0.address, inner.control_generation))
}

pub fn set_generation(generation: u32) {
    with(|inner| inner.control_generation = generation);
}

/// The whole state as it stood.
pub struct Snapshot(Inner);

pub fn snapshot() -> Snapshot {
    // All of it is plain values.
    with(|inner| Snapshot(unsafe { std::ptr::read(inner) }))
}

pub fn restore(snapshot: &Snapshot) {
    with(|inner| unsafe { std::ptr::copy(&snapshot.0, inner, 1) });
}

/// The state, printed: three lines, and one for each slot.
pub fn lines() -> Vec<String> {
    let tabs = |numbers: &[usize]| numbers.iter().map(|n| format!("\t{n}")).collect::<String>();
    let flag = usize::from;
    with(|inner| {
        let mut lines = vec![format!(
            "device{}",
            tabs(&[
                inner.ep0.address,
                flag(inner.powered),
                flag(inner.suspended),
                inner.wake.into(),
                flag(inner.setup.is_some()),
                inner.control_generation as usize,
                flag(inner.in_last),
                inner.tx_seq.into(),
                flag(inner.address.is_some()),
                inner.revision.into(),
                flag(inner.reset_seen),
                flag(inner.low_power),
                inner.events.into(),
            ])
        )];
        lines.push(format!("pending{}", tabs(&inner.setup.unwrap_or_default().map(usize::from))));
        lines.push(format!("address{}", tabs(&[inner.address.unwrap_or(0).into()])));
        for (slot, endpoint) in inner.endpoints.iter().enumerate() {
            let config = endpoint.config.map_or([0; 6], |config| {
                [
                    match config.info.ep_type {
                        EndpointType::Control => 0,
                        EndpointType::Isochronous => 1,
                        EndpointType::Bulk => 2,
                        EndpointType::Interrupt => 3,
                    },
                    config.info.max_packet_size.into(),
                    config.info.interval_ms.into(),
                    config.info.max_burst.into(),
                    config.buffer.address,
                    config.buffer.size,
                ]
            });
            let phase = match endpoint.phase {
                Phase::Idle => 0,
                Phase::Busy => 1,
                Phase::Done => 2,
            };
            let transfer = endpoint.transfer;
            let flags = [endpoint.config.is_some(), endpoint.enabled, endpoint.stalled].map(flag);
            lines.push(format!(
                "slot\t{slot}{}{}{}",
                tabs(&flags),
                tabs(&[phase, transfer.address, transfer.length, transfer.progress, flag(transfer.zlp)]),
                tabs(&config)
            ));
        }
        lines
    })
}
