//! Behind control.rs: a pipe of any generation.
use super::ControlPipe;
use crate::peripherals::USBSS;

pub fn pipe(generation: u32) -> ControlPipe<'static, USBSS> {
    let mut pipe = ControlPipe::new();
    pipe.generation = generation;
    pipe
}

pub fn generation(pipe: &ControlPipe<'static, USBSS>) -> u32 {
    pipe.generation
}
