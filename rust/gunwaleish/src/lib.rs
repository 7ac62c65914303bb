//! The proved model of a PCA9641 bus arbiter, and of its second source TPT29641, for Rust.
//!
//! The work is done by a static library whose every function is proved. This crate gives its
//! numbers and bytes names and nothing more. Build the library first, with `tools/library`.
//!
//! A trace is one byte string: the count 4 and the pins AD3 to AD0; a two-byte low-first count of
//! events and four bytes an event; the count 1 and the kind of part, 0 for a PCA9641 or 1 for a
//! TPT29641. Each event is answered by four bytes: the outcome, the byte read, owner and switch
//! with the ground of the claim, outputs and lines.
//!
//! ```
//! # #[cfg(feature = "alloc")] {
//! use gunwaleish::{run, write_trace, Event, Ground, Master, Part, Pins};
//!
//! // Strapped to 70h, master 0 asks for the bus and is granted it at its STOP.
//! let master = Master::Zero;
//! let events = [
//!     Event::Command { master, code: 1 },
//!     Event::Write { master, value: 0x05 },
//!     Event::Stop { master },
//! ];
//! let trace = write_trace(Pins::of_address(0x70)?, Part::Pca9641, &events)?;
//! assert_eq!(trace[trace.len() - 2..], [1, 0]);
//! let run = run(&trace)?;
//! assert_eq!((run.part, run.events.as_slice()), (Part::Pca9641, &events[..]));
//! assert_eq!((run.answers[1].owner, run.answers[1].ground), (None, Some(Ground::Sole)));
//! assert_eq!(run.answers[2].owner, Some(Master::Zero));
//! # }
//! # Ok::<(), gunwaleish::Refusal>(())
//! ```
//!
//! # What there is
//!
//! | for | there is |
//! |---|---|
//! | a trace | [`run()`] and [`run_trace`], [`listing()`], [`write_trace`], [`convert_trace`] for one that names no part |
//! | a capture of a logic analyser | [`import_capture`], which makes events of it |
//! | two order sheets | [`sheet_box`] looks up a box, [`sheet_events`] gives the events that they order, [`sheet_wait`] how long a controller can wait by them. An empty box is refused, and never becomes a value |
//! | two start-up scripts | [`list_orders`] tries them in all the orders that keep each script's own order, and says for each how the bus stands at its end |
//! | one device | [`Device`] stands between its events and is stepped one by one. It is the image of 38 bytes that a microcontroller keeps, and over quiet time it advances by many ticks at once |
//! | several devices | [`Shelf`], a row of up to 16 of them with their addresses, on the same two upstream buses |
//! | many traces | [`Totals`], the bus share: for how many ticks each controller owned the bus, was connected, and waited |
//! | a real board | [`Watch`] listens to both upstream buses, and holds each byte that the chip gives against the model's answer |
//! | straps | [`Pins`], [`address_of`], [`pins_of`] |
//! | names for the bytes | [`Event`], [`Answer`], [`Bus`], [`Outcome`], [`Ground`], [`Register`], [`Part`], [`Master`] |
//! | what is refused | [`Refusal`], by the numbers of documents 01 and 02 |
//! | a paper that names the library | [`library_identity`], [`library_version`] |
//!
//! # Without the standard library
//!
//! The calls whose names end in `_into`, and `run_trace`, work on bytes in lent buffers. They allocate nothing,
//! and no more do `Device`, `Shelf`, `Totals`, `Watch`, order sheets and straps. With `default-features = false`
//! there is nothing else: the crate needs neither the standard library nor an allocator. The feature
//! `alloc` adds the calls that give a `Vec` or a `String`; the feature `std`, which is on by default,
//! is `alloc` where the standard library brings the allocator. `examples/embedded.rs` is a firmware's use
//! of it.
//!
//! The library has to be one for the processor that the crate is built for. GUNWALEISH_LIB_DIR names its
//! folder.

#![no_std]
#![warn(missing_docs)]

#[cfg(feature = "alloc")]
extern crate alloc;

mod answer;
pub mod boundary;
mod capture;
mod device;
mod event;
mod identity;
mod layout;
mod listing;
mod orders;
mod part;
mod pins;
mod refusal;
mod run;
mod share;
mod sheet;
mod shelf;
mod version;
mod wait;
mod watch;
mod writing;

pub use answer::{Answer, Bus, Ground, Outcome};
#[cfg(feature = "alloc")]
pub use capture::import_capture;
pub use capture::{import_capture_into, MOST_CAPTURED, MOST_SAMPLES};
pub use device::{Device, Register, IMAGE_LENGTH, MOST_TICKS};
pub use event::{Event, Master};
pub use identity::{library_identity, Identity};
pub use layout::{MOST_EVENTS, MOST_TRACE};
#[cfg(feature = "alloc")]
pub use listing::listing;
pub use listing::listing_into;
#[cfg(feature = "alloc")]
pub use orders::list_orders;
pub use orders::{list_orders_into, MOST_ORDERS, MOST_SCRIPT};
pub use part::Part;
pub use pins::{address_of, pins_of, Pins};
pub use refusal::Refusal;
#[cfg(feature = "alloc")]
pub use run::{run, Run};
pub use run::{run_trace, Report};
pub use share::{Totals, MOST_TRACES, TOTAL_COUNT};
pub use sheet::{
    sheet_box, sheet_events, sheet_events_into, Found, Section, Sheet, SHEET_EVENTS, SHEET_LENGTH,
};
pub use shelf::{Shelf, MOST_RECORDS, RECORD_LENGTH};
pub use version::{library_version, Version, VERSION};
pub use wait::{sheet_wait, Wait};
pub use watch::{Check, Watch, WatchSettings, WATCH_LENGTH};
#[cfg(feature = "alloc")]
pub use writing::{convert_trace, write_trace};
pub use writing::{convert_trace_into, write_trace_into};
