//! A master's registers and port.

/// Bits of CONTR. LOCK_GRANT is computed.
pub const PRIORITY: u8 = 0x80;
pub const SMBUS_DIS: u8 = 0x40;
/// IDLE_TIMER_DIS, which enables the idle timer.
pub const IDLE_TIMER: u8 = 0x20;
const SMBUS_SWRST: u8 = 0x10;
pub const BUS_INIT: u8 = 0x08;
pub const BUS_CONNECT: u8 = 0x04;
pub const LOCK_GRANT: u8 = 0x02;
pub const LOCK_REQ: u8 = 0x01;

#[derive(Clone, Copy, PartialEq, Eq)]
pub enum Port {
    AtRest,
    Open,
    OpenForWriting,
}

#[derive(Clone, Copy)]
pub struct Registers {
    pub contr: u8,
    pub rt: u8,
    pub int_status: u8,
    pub int_msk: u8,
    pub mail_low: u8,
    pub mail_high: u8,
    pub mail_full: bool,
    pub port: Port,
    pub pointer: u8,
    pub auto_increment: bool,
}

impl Registers {
    pub fn new() -> Registers {
        Registers {
            contr: 0,
            rt: 0,
            int_status: 0,
            int_msk: 0x7F,
            mail_low: 0,
            mail_high: 0,
            mail_full: false,
            port: Port::AtRest,
            pointer: 0,
            auto_increment: false,
        }
    }

    pub fn is_at_rest(&self) -> bool {
        self.port == Port::AtRest
    }

    pub fn is_open_for_writing(&self) -> bool {
        self.port == Port::OpenForWriting
    }

    pub fn has_swrst(&self) -> bool {
        self.contr & SMBUS_SWRST != 0
    }

    /// False is a code that is not acknowledged.
    pub fn command(&mut self, code: u8) -> bool {
        let acknowledged = code & 0x78 == 0;
        if acknowledged {
            self.port = Port::OpenForWriting;
            self.auto_increment = code & 0x80 != 0;
            self.pointer = code & 0x07;
        } else {
            self.port = Port::Open;
        }
        acknowledged
    }

    /// The error is the number of the refusal.
    pub fn stop(&mut self) -> Result<(), u8> {
        if self.is_at_rest() {
            return Err(4);
        }
        self.port = Port::AtRest;
        Ok(())
    }
}
