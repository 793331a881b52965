//! The traits and types of `embassy_usb_driver` that the driver names, as far as it uses them.
#![allow(async_fn_in_trait)]

#[derive(Clone, Copy, Debug, PartialEq, Eq)]
pub enum Direction {
    Out,
    In,
}

/// Bit 7 is the direction, bits 3 to 0 are the number, as on the bus.
#[derive(Clone, Copy, Debug, PartialEq, Eq)]
pub struct EndpointAddress(u8);

impl EndpointAddress {
    pub fn from_parts(index: usize, direction: Direction) -> Self {
        let bit = if direction == Direction::In { 0x80 } else { 0 };
        Self(index as u8 | bit)
    }

    pub fn is_in(&self) -> bool {
        self.0 & 0x80 != 0
    }

    pub fn index(&self) -> usize {
        usize::from(self.0 & 0x7f)
    }

    pub fn direction(&self) -> Direction {
        if self.is_in() {
            Direction::In
        } else {
            Direction::Out
        }
    }
}

#[derive(Clone, Copy, Debug, PartialEq, Eq)]
pub enum EndpointType {
    Control,
    Isochronous,
    Bulk,
    Interrupt,
}

#[derive(Clone, Copy, Debug, PartialEq, Eq)]
pub struct EndpointInfo {
    pub addr: EndpointAddress,
    pub ep_type: EndpointType,
    pub max_packet_size: u16,
    pub interval_ms: u8,
    pub max_burst: u8,
}

#[derive(Clone, Copy, Debug, PartialEq, Eq)]
pub struct EndpointConfig {
    pub addr: Option<EndpointAddress>,
    pub ep_type: EndpointType,
    pub max_packet_size: u16,
    pub interval_ms: u8,
    pub max_burst: u8,
    pub max_streams: u16,
    pub mult: u8,
}

#[derive(Clone, Copy, Debug, PartialEq, Eq)]
pub struct EndpointAllocError;

#[derive(Clone, Copy, Debug, PartialEq, Eq)]
pub struct Unsupported;

#[derive(Clone, Copy, Debug, PartialEq, Eq)]
pub enum EndpointError {
    BufferOverflow,
    Disabled,
}

#[derive(Clone, Copy, Debug, PartialEq, Eq)]
pub enum Event {
    Reset,
    Suspend,
    Resume,
    PowerDetected,
    PowerRemoved,
}

pub trait Driver<'a> {
    type EndpointOut: EndpointOut + 'a;
    type EndpointIn: EndpointIn + 'a;
    type ControlPipe: ControlPipe + 'a;
    type Bus: Bus + 'a;

    fn alloc_endpoint_out(&mut self, config: &EndpointConfig) -> Result<Self::EndpointOut, EndpointAllocError>;
    fn alloc_endpoint_in(&mut self, config: &EndpointConfig) -> Result<Self::EndpointIn, EndpointAllocError>;
    fn start(self, control_max_packet_size: u16) -> (Self::Bus, Self::ControlPipe);
}

pub trait Bus {
    async fn enable(&mut self);
    async fn disable(&mut self);
    async fn poll(&mut self) -> Event;
    fn endpoint_set_enabled(&mut self, address: EndpointAddress, enabled: bool);
    fn endpoint_set_stalled(&mut self, address: EndpointAddress, stalled: bool);
    fn endpoint_is_stalled(&mut self, address: EndpointAddress) -> bool;
    async fn remote_wakeup(&mut self) -> Result<(), Unsupported>;
}

pub trait Endpoint {
    fn info(&self) -> &EndpointInfo;
    async fn wait_enabled(&mut self);
    fn set_stall(&mut self, stalled: bool) -> Result<(), Unsupported>;
    fn is_stalled(&self) -> Result<bool, Unsupported>;
}

pub trait EndpointOut: Endpoint {
    async fn read(&mut self, buffer: &mut [u8]) -> Result<usize, EndpointError>;
    async fn read_transfer(&mut self, buffer: &mut [u8]) -> Result<usize, EndpointError>;
}

pub trait EndpointIn: Endpoint {
    async fn write(&mut self, buffer: &[u8]) -> Result<(), EndpointError>;
    async fn write_transfer(&mut self, buffer: &[u8], needs_zlp: bool) -> Result<(), EndpointError>;
}

pub trait ControlPipe {
    fn max_packet_size(&self) -> usize;
    async fn setup(&mut self) -> [u8; 8];
    async fn data_out(&mut self, buffer: &mut [u8], first: bool, last: bool) -> Result<usize, EndpointError>;
    async fn data_in(&mut self, data: &[u8], first: bool, last: bool) -> Result<(), EndpointError>;
    async fn accept(&mut self);
    async fn reject(&mut self);
    async fn accept_set_address(&mut self, address: u8);
}
