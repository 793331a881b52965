//! The Rust's side of the bench. It stands in the place of the host role, which the port doesn't have.
use super::device::peek;
use super::endpoint::peek::run;
use super::{Bus, Driver, Endpoint, Instance, InterruptHandler, LinkInterruptHandler, SealedInstance};
use crate::interrupt::typelevel::Binding;
use crate::pac::usbss::regs;
use crate::pac::RECORDS;
use crate::peripherals::USBSS;
use crate::Peri;
use embassy_usb_driver::{
    Bus as _, Direction, Driver as _, Endpoint as _, EndpointAddress, EndpointConfig, EndpointType, Event,
};
use std::ffi::{c_char, c_int, CStr};
use std::future::Future;
use std::hint::black_box;
use std::mem::{forget, MaybeUninit};
use std::pin::Pin;
use std::sync::atomic::Ordering;
use std::task::{Context, Poll, Waker};

extern "C" {
    fn bench_on();
    fn bench_off();
}

struct Irqs;
unsafe impl Binding<<USBSS as Instance>::Interrupt, InterruptHandler<USBSS>> for Irqs {}
unsafe impl Binding<<USBSS as Instance>::LinkInterrupt, LinkInterruptHandler<USBSS>> for Irqs {}

const MEMORY: usize = 0x200a_0000;
const PIECE: usize = 0x200b_0000;
const SHORT: usize = 8 * 1024;
const LONG: usize = 2 * 255 * 1024;

type In = Endpoint<'static, USBSS, true>;
type Out = Endpoint<'static, USBSS, false>;

struct Side {
    bus: Bus<'static, USBSS>,
    slots: usize,
    ins: [Option<In>; 8],
    outs: [Option<Out>; 8],
    fresh: peek::Kept,
    off: peek::Kept,
    on: peek::Kept,
}

static mut SIDE: Option<Side> = None;

fn side() -> &'static mut Side {
    unsafe { (*&raw mut SIDE).as_mut().unwrap() }
}

fn address(index: usize, incoming: bool) -> EndpointAddress {
    EndpointAddress::from_parts(index, if incoming { Direction::In } else { Direction::Out })
}

/// A driver with so many data slots allocated, and its endpoints.
fn driver(slots: usize) -> (Driver<'static, USBSS>, [Option<In>; 8], [Option<Out>; 8]) {
    // It keeps the address alone; nothing lies there.
    let memory = unsafe { std::slice::from_raw_parts_mut(MEMORY as *mut u8, 0x4000) };
    let mut driver = Driver::new(Peri::another(), Irqs, memory).unwrap_or_else(|_| panic!("no driver"));
    let mut ins = [const { None }; 8];
    let mut outs = [const { None }; 8];
    for i in 0..slots {
        let (index, incoming) = (i / 2 + 1, i % 2 == 0);
        let config = EndpointConfig {
            addr: Some(address(index, incoming)),
            ep_type: EndpointType::Bulk,
            max_packet_size: 1024,
            interval_ms: 0,
            max_burst: 0,
            max_streams: 0,
            mult: 0,
        };
        if incoming {
            ins[index] = Some(driver.alloc_endpoint_in(&config).unwrap());
        } else {
            outs[index] = Some(driver.alloc_endpoint_out(&config).unwrap());
        }
    }
    (driver, ins, outs)
}

#[no_mangle]
extern "C" fn side_setup(slots: c_int) {
    let slots = slots as usize;
    let fresh = peek::keep();
    let (driver, ins, outs) = driver(slots);
    let (mut bus, _) = driver.start(512);
    let off = peek::keep();
    peek::power_on(&mut bus);
    for i in 0..slots {
        bus.endpoint_set_enabled(address(i / 2 + 1, i % 2 == 0), true);
    }
    let on = peek::keep();
    unsafe { SIDE = Some(Side { bus, slots, ins, outs, fresh, off, on }) };
}

/// What is counted.
#[inline(always)]
fn counted<R>(f: impl FnOnce() -> R) -> R {
    RECORDS.store(0, Ordering::Relaxed);
    unsafe { bench_on() };
    let result = f();
    unsafe { bench_off() };
    result
}

fn poll<F: Future>(future: &mut F) -> Poll<F::Output> {
    // Nothing here is moved once it was polled.
    unsafe { Pin::new_unchecked(future) }.poll(&mut Context::from_waker(Waker::noop()))
}

/// A future made in its place, and polled for the first time.
#[inline(never)]
fn first<F: Future>(place: &mut MaybeUninit<F>, make: impl FnOnce() -> F) -> Poll<F::Output> {
    poll(place.write(make()))
}

#[inline(never)]
fn again<F: Future>(future: &mut F) -> Poll<F::Output> {
    poll(future)
}

#[inline(never)]
fn dropped<F>(future: &mut MaybeUninit<F>) {
    unsafe { future.assume_init_drop() }
}

/// A transfer that is begun and left; its future is never dropped, which would abort it.
fn begun<const IN: bool>(endpoint: &'static mut Option<Endpoint<'static, USBSS, IN>>, length: usize) {
    let mut future = MaybeUninit::uninit();
    assert!(first(&mut future, || run(endpoint.as_mut().unwrap(), PIECE, length)).is_pending());
}

#[inline(never)]
fn start(driver: Driver<'static, USBSS>) -> (Bus<'static, USBSS>, super::ControlPipe<'static, USBSS>) {
    driver.start(512)
}

#[inline(never)]
fn set_stalled(bus: &mut Bus<'static, USBSS>, address: EndpointAddress, stalled: bool) {
    bus.endpoint_set_stalled(address, stalled);
}

#[inline(never)]
fn set_enabled(bus: &mut Bus<'static, USBSS>, address: EndpointAddress, enabled: bool) {
    bus.endpoint_set_enabled(address, enabled);
}

#[inline(never)]
fn is_stalled(bus: &mut Bus<'static, USBSS>, address: EndpointAddress) -> bool {
    bus.endpoint_is_stalled(address)
}

/// The driver's wait by itself, as it is compiled for a fixed number of rounds.
#[inline(never)]
fn wait<const ROUNDS: u32>() {
    super::delay_cycles(ROUNDS);
}

/// What the controller says of a chain that ended on OUT 1.
fn chain_ended(packets: u8, last: u32) {
    let rx = USBSS::device().ep_rx(0);
    rx.chain_nump().write_value(packets);
    rx.chain_len().write_value(regs::EpChainLen(last));
}

/// What the controller says at an interrupt in which the link has nothing to say: the transfer status, by bits of pac.rs.
fn interrupted(status: u32) {
    let device = USBSS::device();
    device.link_int_flag().write_value(regs::LinkIntFlag(0));
    device.link_status().write_value(regs::LinkStatus(0));
    device.status().write_value(regs::Status(status));
}

#[no_mangle]
extern "C" fn side_run(row: *const c_char) -> c_int {
    let row = unsafe { CStr::from_ptr(row) }.to_str().unwrap();
    let s = side();
    peek::put_back(&s.on);
    // Hidden from the compiler, as the port's arguments are.
    let (at, length, one, yes, no) = black_box((PIECE, SHORT, 1, true, false));
    let bus = &mut s.bus;
    match row {
        "empty" => counted(|| ()),
        "begin_in" => {
            let endpoint = s.ins[1].as_mut().unwrap();
            let mut future = MaybeUninit::uninit();
            assert!(counted(|| first(&mut future, || run(endpoint, at, length))).is_pending());
            assert_eq!(peek::slot(3), (true, false, 1, SHORT));
        }
        "begin_out" | "begin_out_busy" => {
            let (outs, others) = s.outs.split_at_mut(2);
            if row == "begin_out_busy" {
                for other in others {
                    begun(other, SHORT);
                }
            }
            let endpoint = outs[1].as_mut().unwrap();
            let mut future = MaybeUninit::uninit();
            assert!(counted(|| first(&mut future, || run(endpoint, at, length))).is_pending());
            assert_eq!(peek::slot(2), (true, false, 1, 0));
        }
        "report_in_on" => {
            begun(&mut s.ins[1], LONG);
            counted(|| peek::report(one, yes));
            assert_eq!(peek::slot(3), (true, false, 1, LONG));
        }
        "report_in_done" => {
            begun(&mut s.ins[1], SHORT);
            counted(|| peek::report(one, yes));
            assert_eq!(peek::slot(3), (true, false, 2, SHORT));
        }
        "report_out_on" => {
            begun(&mut s.outs[1], LONG);
            chain_ended(255, 1024);
            counted(|| peek::report(one, no));
            assert_eq!(peek::slot(2), (true, false, 1, LONG / 2));
        }
        "report_out_done" => {
            begun(&mut s.outs[1], SHORT);
            chain_ended(8, 1024);
            counted(|| peek::report(one, no));
            assert_eq!(peek::slot(2), (true, false, 2, SHORT));
        }
        "irq_in_on" | "irq_in_done" => {
            let on = row == "irq_in_on";
            begun(&mut s.ins[1], if on { LONG } else { SHORT });
            interrupted(0x181); // a transfer, IN 1
            counted(peek::interrupt);
            assert_eq!(peek::slot(3), (true, false, if on { 1 } else { 2 }, if on { LONG } else { SHORT }));
        }
        "irq_out_on" | "irq_out_done" => {
            let on = row == "irq_out_on";
            begun(&mut s.outs[1], if on { LONG } else { SHORT });
            chain_ended(if on { 255 } else { 8 }, 1024);
            interrupted(0x101); // a transfer, OUT 1
            counted(peek::interrupt);
            assert_eq!(peek::slot(2), (true, false, if on { 1 } else { 2 }, if on { LONG / 2 } else { SHORT }));
        }
        "irq_setup" => {
            let (_, before) = peek::setup();
            interrupted(0x002);
            counted(peek::interrupt);
            assert_eq!(peek::setup(), (true, before + 1));
        }
        "irq_status" => {
            interrupted(0x004);
            counted(peek::interrupt);
        }
        "take_busy" | "take_done" | "abandon_busy" | "abandon_idle" => {
            let endpoint = s.ins[1].as_mut().unwrap();
            let mut future = MaybeUninit::uninit();
            assert!(first(&mut future, || run(endpoint, at, length)).is_pending());
            match row {
                "take_busy" => {
                    let future = unsafe { future.assume_init_mut() };
                    assert!(counted(|| again(future)).is_pending());
                }
                "take_done" => {
                    peek::report(1, true);
                    let future = unsafe { future.assume_init_mut() };
                    assert_eq!(counted(|| again(future)), Poll::Ready(Ok(SHORT)));
                    assert_eq!(peek::slot(3).2, 0);
                }
                "abandon_busy" => {
                    counted(|| dropped(&mut future));
                    assert_eq!(peek::slot(3).2, 0);
                }
                _ => {
                    bus.endpoint_set_stalled(address(1, true), false); // cuts it: the slot is idle
                    assert_eq!(peek::slot(3).2, 0);
                    counted(|| dropped(&mut future));
                }
            }
        }
        "stall_idle" | "stall_busy" => {
            if row == "stall_busy" {
                begun(&mut s.ins[1], SHORT);
            }
            let address = address(one, yes);
            counted(|| set_stalled(bus, address, yes));
            let (enabled, stalled, phase, _) = peek::slot(3);
            assert_eq!((enabled, stalled, phase), (true, true, 0));
        }
        "unstall" => {
            let address = address(one, yes);
            counted(|| set_stalled(bus, address, no));
            assert_eq!(peek::slot(3), (true, false, 0, 0));
        }
        "enable" | "disable" => {
            let (address, enabled) = (address(one, yes), black_box(row == "enable"));
            counted(|| set_enabled(bus, address, enabled));
            assert_eq!(peek::slot(3), (enabled, false, 0, 0));
        }
        "is_stalled" => {
            let address = address(one, yes);
            assert!(!counted(|| is_stalled(bus, address)));
        }
        "is_enabled" => {
            let endpoint = s.ins[1].as_mut().unwrap();
            let mut future = MaybeUninit::uninit();
            assert!(counted(|| first(&mut future, || endpoint.wait_enabled())).is_ready());
        }
        "power_on" => {
            peek::put_back(&s.off);
            counted(|| peek::power_on(bus));
            assert!(peek::powered());
        }
        "power_off" => {
            counted(|| peek::power_off(bus));
            assert!(!peek::powered() && !peek::slot(3).0);
        }
        "wait_1000" | "wait_2000" => {
            // Called from one place, so that they differ by the rounds alone.
            let wait: fn() = if row == "wait_1000" { wait::<1000> } else { wait::<2000> };
            counted(black_box(wait));
        }
        "start" => {
            peek::put_back(&s.fresh);
            let (driver, ..) = driver(s.slots);
            let (bus, _) = counted(|| start(driver));
            forget(bus); // dropped, it would switch the power off
            assert_eq!((peek::powered(), peek::events(), peek::configured()), (false, (true, false), s.slots));
        }
        "bus_reset" => {
            counted(peek::bus_reset);
            assert!(peek::powered() && !peek::slot(3).0);
        }
        "raise" => {
            peek::set_events(false);
            let event = black_box(peek::RESET_EVENT);
            counted(|| peek::raise(event));
            assert_eq!(peek::events(), (true, true));
        }
        "poll" => {
            peek::set_events(true);
            let mut future = MaybeUninit::uninit();
            let event = counted(|| first(&mut future, || bus.poll()));
            assert_eq!(event, Poll::Ready(Event::PowerDetected));
            assert_eq!(peek::events(), (false, true));
        }
        _ => return 1,
    }
    0
}

#[no_mangle]
extern "C" fn side_records() -> c_int {
    if cfg!(counted) {
        RECORDS.load(Ordering::Relaxed) as c_int
    } else {
        -1
    }
}

#[no_mangle]
extern "C" fn side_state_size() -> usize {
    peek::STATE_BYTES
}
