//! The records of power-on. Arguments: silicon revision (3), EP0's address (0x200A0000), decimal.
use driver::device::{at_once, new_driver, EP0_SIZE};
use driver::ram;
use embassy_usb_driver::{Bus as _, Driver as _};
use record::Entry;

fn main() {
    let mut arguments = std::env::args().skip(1).map(|text| text.parse::<usize>().expect("a number"));
    let revision = arguments.next().unwrap_or(3);
    let memory = arguments.next().unwrap_or(ram::START);
    ram::map();
    record::set_revision(revision as u8);
    let (mut bus, _control) = new_driver(memory, EP0_SIZE).start(EP0_SIZE as u16);
    record::take();
    at_once(bus.enable());
    println!("kind\tregister\tindex\tfield\tvalue");
    for entry in record::take() {
        match entry {
            Entry::Operation(record) => println!("{record}"),
            Entry::Copied(..) => println!("fault\tcopy"),
            Entry::Asked(register, _) => println!("fault\tread {register}"),
            Entry::Aside(what) => eprintln!("left to the board: {what}"),
            Entry::Fault(what) => println!("fault\t{what}"),
        }
    }
}
