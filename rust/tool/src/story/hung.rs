//! Whether the bus is hung after each event, asked of the library.
//!
//! BUS_HUNG is bit 2 of STATUS, and no answer shows it but that of a READ. So we ask: a standing device takes
//! the same events, and its STATUS is read after each, which is no event and changes nothing. With both lines
//! high the bus is not hung, so only the other moments are asked.

use gunwaleish::{Answer, Device, Event, Master, Register, Run};

const BUS_HUNG: u8 = 0x04;

/// A flag for each event.
pub fn flags(run: &Run) -> Vec<bool> {
    let mut device = Device::fresh(run.part);
    let step = |(&event, answer): (&Event, &Answer)| {
        device.step(event);
        let high = answer.scl && answer.sda;
        // Both masters are shown the same flag.
        !high && device.read(Master::Zero, Register::Status) & BUS_HUNG != 0
    };
    run.events.iter().zip(&run.answers).map(step).collect()
}
