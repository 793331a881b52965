//! Behind endpoint.rs: its private transfer.
use super::{Endpoint, EndpointError};
use crate::peripherals::USBSS;
use std::future::Future;

pub fn run<'a, const IN: bool>(
    endpoint: &'a mut Endpoint<'static, USBSS, IN>,
    address: usize,
    length: usize,
) -> impl Future<Output = Result<usize, EndpointError>> + use<'a, IN> {
    endpoint.run(address, length, false)
}
