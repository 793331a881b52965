//! A device made by the driver's own calls, and its futures polled by hand.
use std::future::Future;
use std::pin::{pin, Pin};
use std::task::{Context, Poll, Waker};

use embassy_usb_driver::{
    Bus as _, Direction, Driver as _, EndpointAddress, EndpointConfig, EndpointIn as _, EndpointOut as _, EndpointType,
};
use record::{Entry, Reading};

use crate::interrupt::typelevel::Handler;
use crate::parts::Irqs;
use crate::peripherals::USBSS;
use crate::usbss::host::probe;
use crate::usbss::{Bus, Driver, Endpoint, InterruptHandler};
use crate::{ram, Peri};

pub const EP0_SIZE: usize = 512;

pub fn poll<F: Future + ?Sized>(future: Pin<&mut F>) -> Poll<F::Output> {
    future.poll(&mut Context::from_waker(Waker::noop()))
}

/// For futures that don't wait.
pub fn at_once<F: Future>(future: F) -> F::Output {
    match poll(pin!(future)) {
        Poll::Ready(result) => result,
        Poll::Pending => panic!("it waits"),
    }
}

/// An interrupt with these readings, all of which must be asked for.
pub fn interrupt(readings: Vec<Reading>) {
    record::set_readings(readings);
    unsafe { <InterruptHandler<USBSS> as Handler<_>>::on_interrupt() };
    if record::readings_left() != 0 {
        record::fault("readings left".into());
        record::set_readings(Vec::new());
    }
}

/// The handler with the readings so far; says whether it ended. It goes on from the start each time.
pub fn converse(readings: Vec<Reading>) -> bool {
    record::converse(readings, || unsafe { <InterruptHandler<USBSS> as Handler<_>>::on_interrupt() })
}

pub fn reading(register: &'static str, index: usize, fields: &[(&'static str, u32)]) -> Reading {
    Reading { register, index: index as u32, fields: fields.to_vec() }
}

/// The readings of an interrupt that has a transfer to report and no link flag.
pub fn transfer_readings(endpoint: usize, incoming: bool) -> Vec<Reading> {
    vec![
        reading("link_int_flag", 0, &[]),
        reading("link_status", 0, &[]),
        reading("status", 0, &[("uif_transfer", 1), ("ep_id", endpoint as u32), ("ep_dir", incoming.into())]),
    ]
}

pub fn address(endpoint: usize, incoming: bool) -> EndpointAddress {
    EndpointAddress::from_parts(endpoint, if incoming { Direction::In } else { Direction::Out })
}

pub fn new_driver(memory: usize, capacity: usize) -> Driver<'static, USBSS> {
    let slice = unsafe { ram::slice(memory, capacity) };
    match Driver::new(Peri::new(USBSS), Irqs, slice) {
        Ok(driver) => driver,
        Err(error) => panic!("creation refused: {error:?}"),
    }
}

/// How a transfer is asked for.
#[derive(Clone, Copy, Debug, PartialEq, Eq)]
pub enum Way {
    /// By `run`, with the piece and the flag as they are.
    Run,
    /// By `write_transfer` or `read_transfer`.
    Public,
}

/// A transfer on a fresh device that has its endpoint alone, enabled.
#[derive(Clone, Copy, Debug)]
pub struct Transfer {
    pub incoming: bool,
    pub endpoint: usize,
    pub size: usize,
    pub own: usize,
    pub address: usize,
    pub length: usize,
    pub flag: bool,
}

impl Transfer {
    /// Whether the public calls come to this very transfer, or to one with the same chains.
    pub fn has_public_way(&self) -> bool {
        if self.incoming {
            (self.length > 0 || self.flag) && (!self.flag || self.length % self.size == 0)
        } else {
            true
        }
    }

    /// The entries of its begin and of each full report, and the result.
    pub fn entries(&self, way: Way) -> (Vec<Entry>, usize) {
        if self.incoming {
            self.on::<true>(way, |driver, config| driver.alloc_endpoint_in(config).unwrap())
        } else {
            self.on::<false>(way, |driver, config| driver.alloc_endpoint_out(config).unwrap())
        }
    }

    fn on<const IN: bool>(
        &self,
        way: Way,
        allocate: impl FnOnce(&mut Driver<'static, USBSS>, &EndpointConfig) -> Endpoint<'static, USBSS, IN>,
    ) -> (Vec<Entry>, usize)
    where
        Endpoint<'static, USBSS, IN>: Moves,
    {
        let allocated = self.own >= ram::START + EP0_SIZE;
        let memory = if allocated { self.own - EP0_SIZE } else { ram::START };
        let mut driver = new_driver(memory, EP0_SIZE + self.size);
        let mut endpoint = allocate(
            &mut driver,
            &EndpointConfig {
                addr: Some(address(self.endpoint, IN)),
                ep_type: EndpointType::Interrupt,
                max_packet_size: self.size as u16,
                interval_ms: 1,
                max_burst: 0,
                max_streams: 0,
                mult: 0,
            },
        );
        let (mut bus, _control): (Bus<USBSS>, _) = driver.start(EP0_SIZE as u16);
        if !allocated {
            probe::device::move_buffer(2 * self.endpoint + usize::from(IN), self.own);
            probe::endpoint::move_buffer(&mut endpoint, self.own);
        }
        at_once(bus.enable());
        bus.endpoint_set_enabled(address(self.endpoint, IN), true);
        record::take();
        let result = match way {
            Way::Run => self.reports(async {
                probe::endpoint::run(&mut endpoint, self.address, self.length, self.flag).await.unwrap()
            }),
            Way::Public => self.reports(endpoint.moves(self)),
        };
        let entries = result.0;
        drop(bus);
        record::take();
        (entries, result.1)
    }

    fn reports(&self, future: impl Future<Output = usize>) -> (Vec<Entry>, usize) {
        let mut future = pin!(future);
        let mut entries = Vec::new();
        loop {
            let polled = poll(future.as_mut());
            entries.extend(record::take());
            if let Poll::Ready(result) = polled {
                return (entries, result);
            }
            let mut readings = transfer_readings(self.endpoint, self.incoming);
            if !self.incoming {
                let packets = entries.iter().rev().find_map(|entry| match entry {
                    Entry::Operation(record) if record.register == "rx.chain_max_nump" => Some(record.value),
                    _ => None,
                });
                readings.push(reading("rx.chain_nump", self.endpoint, &[("all", packets.unwrap_or(0))]));
                readings.push(reading("rx.chain_len", self.endpoint, &[("len", self.size as u32)]));
            }
            interrupt(readings);
            let reported = record::take();
            if reported.iter().all(|entry| !matches!(entry, Entry::Operation(_))) {
                panic!("a report did nothing: {self:?}");
            }
            entries.extend(reported);
        }
    }
}

/// The public call of a direction; gives the bytes moved.
pub trait Moves {
    #[allow(async_fn_in_trait)]
    async fn moves(&mut self, transfer: &Transfer) -> usize;
}

impl Moves for Endpoint<'static, USBSS, true> {
    async fn moves(&mut self, transfer: &Transfer) -> usize {
        let buffer = unsafe { ram::slice(transfer.address, transfer.length) };
        self.write_transfer(buffer, transfer.flag).await.unwrap();
        transfer.length
    }
}

impl Moves for Endpoint<'static, USBSS, false> {
    async fn moves(&mut self, transfer: &Transfer) -> usize {
        let buffer = unsafe { ram::slice(transfer.address, transfer.length) };
        self.read_transfer(buffer).await.unwrap()
    }
}
