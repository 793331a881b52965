//! Behind endpoint.rs: a transfer with any piece and flag.
use super::Endpoint;
use crate::peripherals::USBSS;
use embassy_usb_driver::EndpointError;

pub async fn run<const IN: bool>(
    endpoint: &mut Endpoint<'static, USBSS, IN>,
    address: usize,
    length: usize,
    flag: bool,
) -> Result<usize, EndpointError> {
    endpoint.run(address, length, flag).await
}

/// As the device's probe has it for the slot.
pub fn move_buffer<const IN: bool>(endpoint: &mut Endpoint<'static, USBSS, IN>, address: usize) {
    endpoint.buffer.address = address;
}

/// Its number, and where its own buffer lies.
pub fn place<const IN: bool>(endpoint: &Endpoint<'static, USBSS, IN>) -> (usize, usize) {
    (endpoint.info.addr.index(), endpoint.buffer.address)
}

/// Address and length of its own buffer.
pub fn own<const IN: bool>(endpoint: &Endpoint<'static, USBSS, IN>) -> (usize, usize) {
    (endpoint.buffer.address, endpoint.buffer.size)
}
