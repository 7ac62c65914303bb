//! A plain model of the shelf arbiter, written from the papers, and from what was asked of waits, and never from the definitions.
//!
//! The paper is document 01 (01-scope.md). Its open points are decided in
//! readings.md, and comments here say "reading 5" for point 5 of that list.
//! The model serves to check a proved implementation in tests. So nothing in
//! it was taken from that implementation, and nothing in it is made fast.
//! Later requests are those of document 02 (02-change-requests.md); a comment
//! names them by their number.
//!
//! ```
//! use model::device::Device;
//! use model::part::Kind;
//!
//! // Master 0 opens CONTR, asks for the bus and to be connected, and is granted both at its STOP.
//! let mut device = Device::power_up_of(Kind::Pca9641);
//! assert_eq!(device.step([0, 0, 1, 0]), [0, 0, 0x00, 0x0C]);
//! assert_eq!(device.step([1, 0, 5, 0]), [0, 0, 0x20, 0x0C]);
//! assert_eq!(device.step([3, 0, 0, 0]), [0, 0, 0x25, 0x0C]);
//! ```
//!
//! - [`straps`]: pins to address and back ("Straps").
//! - [`event`]: what four bytes mean, refusals 2 and 3 ("Events").
//! - [`part`]: the two kinds of part (document 02, #105).
//! - [`device`]: what the device remembers, and what follows from it.
//! - [`claim`], [`claimant`]: who claims the bus, and on what ground (part 5 of a step; document 02, #107).
//! - [`bytes`]: what a byte written or read does ("Registers").
//! - [`step`]: one event, in the order of "Order inside a step".
//! - [`trace`]: whole traces and the listing ("Answers and the trace").
//! - [`writer`]: a trace out of pins, kind and events (document 02, #101).
//! - [`converter`]: an old trace given its third section (document 02, #105).
//! - [`capture`]: a logic-analyser capture turned into events (document 02, #104).
//! - [`sheet`]: the order sheet (document 02, #106).
//! - [`mod@wait_of`]: how long a controller can wait by a pair of order sheets.
//! - [`image`], [`image_fields`]: the device as 38 bytes, and a step on them (document 02, #108).
//! - [`orders`]: all orders of two start-up scripts (document 02, #109).
//! - [`shelf`], [`row`]: several devices with addresses, as records and as bytes (document 02, #110).
//! - [`share`], [`report`]: the ticks that each controller owned, was connected and waited (document 02,
//!   #112).
//! - [`advance`]: as many TICK events as one call (document 02, #113).
//! - [`rng`], [`phrases`], [`waits`], [`traces`], [`damage`]: random cases for the tests.
//! - [`happenings`], [`seen`], [`hanging`], [`second_part`], [`grounds`], [`kinds`]: what happens in them.
//! - [`pen`], [`captures`], [`capture_damage`], [`sightings`]: random captures, and what is seen in them.
//! - [`sheets`]: random order sheets, and what is seen in them.
//! - [`wait_sights`]: what is seen in the waits that they come to.
//! - [`nights`]: random runs of two controllers that ask, transfer, let go and wait.
//! - [`crashes`]: random states at which a controller falls silent, and what may still come then.
//! - [`images`]: random images, good and damaged, and what is seen in them.
//! - [`scripts`]: random pairs of start-up scripts, and what is seen in their orders.
//! - [`shelves`], [`shelf_sights`]: random shelves and runs on them, and what is seen in them.
//! - [`shares`]: random totals and traces to add, and what is seen in them.
//! - [`advances`]: random devices to advance, and what is seen when they are.
//! - [`wire`]: both upstream buses line by line: a chip played on them, right or not, captures of it, and
//!   a listener (`wire::listen`).
//! - [`stored`]: the traces that the repository keeps as one set.
//! - [`stored_share`]: the inputs of the bus share report that it keeps.

pub mod advance;
pub mod advances;
pub mod bytes;
pub mod capture;
pub mod capture_damage;
pub mod captures;
pub mod claim;
pub mod claimant;
pub mod converter;
pub mod crashes;
pub mod damage;
pub mod device;
pub mod event;
pub mod grounds;
pub mod hanging;
pub mod happenings;
pub mod image;
pub mod image_fields;
pub mod images;
pub mod kinds;
pub mod nights;
pub mod orders;
pub mod part;
pub mod pen;
pub mod phrases;
pub mod report;
pub mod rng;
pub mod row;
pub mod scripts;
pub mod second_part;
pub mod seen;
pub mod share;
pub mod shares;
pub mod sheet;
pub mod sheets;
pub mod shelf;
pub mod shelf_sights;
pub mod shelves;
pub mod sightings;
pub mod step;
pub mod stored;
pub mod stored_share;
pub mod straps;
pub mod trace;
pub mod traces;
pub mod wait_of;
pub mod wait_sights;
pub mod waits;
pub mod wire;
pub mod writer;

pub use advance::{image_advance, Advanced};
pub use capture::{import_capture, Imported};
pub use converter::convert_trace;
pub use device::{Device, Switch};
pub use image::{image_fresh, image_of, image_read, image_step, read_image};
pub use orders::{list_orders, Listed};
pub use part::Kind;
pub use report::share_report;
pub use row::{read_row, row_of, shelf_fresh, shelf_show, shelf_step};
pub use share::{share_add, share_join, Totals};
pub use sheet::{look_up, sheet_events};
pub use shelf::{Record, Shelf};
pub use straps::{address_of, pins_of};
pub use trace::{listing, read_trace, run_trace, Trace, TraceResult};
pub use wait_of::{wait_of, Wait};
pub use writer::{write_trace, Written};
