//! What is seen in calls with shelves (document 02, #110).

use crate::device::{Port, SMBUS_SWRST};
use crate::event::{read_event, Event, SOFT_RESET};
use crate::image::{read_image, OTHER_LENGTH, OUT_OF_RANGE};
use crate::part::Kind;
use crate::row::{read_row, RECORD_LENGTH};
use crate::seen::{Happenings, EVENT_NAMES};
use crate::shelf::*;

/// The names of all sights that calls with shelves have to reach.
pub fn shelf_sights() -> Vec<String> {
    let mut names: Vec<String> = SIGHTS.iter().map(|name| name.to_string()).collect();
    for (kind, name) in (0..).zip(EVENT_NAMES) {
        match naming_of(kind) {
            Naming::Address | Naming::Place => {
                names.extend([reaches_one(name), not_in_the_row(name)]);
            }
            Naming::All => names.extend([reaches_all(name), any_name(name)]),
            Naming::Nothing => {}
        }
    }
    names
}

fn reaches_one(name: &str) -> String {
    format!("{name} for one of several devices")
}

fn reaches_all(name: &str) -> String {
    format!("{name} for all of several devices")
}

fn not_in_the_row(name: &str) -> String {
    format!("18 for {name}")
}

fn any_name(name: &str) -> String {
    format!("{name} beside a name that is not in the row")
}

const SIGHTS: &[&str] = &[
    // Rows that do not read as one.
    "row of a byte too few",
    "row of a byte too many",
    "9 where an image is out of range",
    "9 where the event is of unknown kind",
    "16 in the first of several records",
    "16 in the last of several records",
    "16 in a record that the event is not for",
    "16 where two addresses are equal",
    "16 above 16 records",
    "16 where the name is not in the row",
    "16 in a row where the event is of unknown kind",
    // The shelf's own refusals, and their order.
    "5 for an event that reaches all",
    "5 for an event that names something",
    "5 for an unknown kind",
    "6 for 17 records",
    "6 for 18 records",
    "6 where two addresses are equal",
    "6 for an unknown kind",
    "17 where the name is not in the row",
    "17 for an event that reaches all",
    "17 for an unknown kind",
    "17 for an event whose device has an address of its own",
    "18 where a field of the event is out of range",
    "18 for the place after the last",
    "18 for an address that is the number of a place",
    "18 for a place that is an address",
    // What an event does on a row.
    "row of one device",
    "row of 16 devices",
    "both kinds of part in one row",
    "address outside 08h to 77h named",
    "unknown kind beside a name that is not in the row",
    "event refused with 3 for one of several devices",
    "event refused with 3 for all of several devices",
    "event refused with 4 for one of several devices",
    "different owners in one row",
    "TICK that moves an owner at one place and not at another",
    "STOP for one device, the port of another stays open",
    "soft reset that holds place 0 alone",
    "soft reset that holds another place and not place 0",
    "soft reset that holds every place",
    "soft reset that holds no place",
    "GENERAL CALL not acknowledged by several devices",
    // Places shown.
    "place 0 shown",
    "place 15 shown",
    "place after the last shown",
    "owner shown that place 0 has not",
    // Fresh rows.
    "fresh row of one device",
    "fresh row of 16 devices",
    "fresh row of both kinds of part",
    "fresh row over one out of range",
    "slots not in pairs",
    "row of one record too many for its slots",
    "row of one record too few for its slots",
    "no slots and a row for one",
    "slots above 16 where two addresses are equal",
    "slots with equal addresses where a kind is unknown",
    "slots above 16 where a kind is unknown",
];

impl Happenings {
    /// Looks at a step on a row of any bytes.
    pub fn see_shelf_step(&mut self, name: u8, event: [u8; 4], row: &[u8]) {
        match read_row(row) {
            Err(OTHER_LENGTH) => self.see_no_records(event, row),
            Err(_) => self.see_damaged_record(name, event, row),
            Ok(shelf) => match shelf.refusal() {
                Some(number) => self.see_refused_row(number, name, event, &shelf),
                None => self.see_good_row(name, event, &shelf),
            },
        }
    }

    fn see_no_records(&mut self, event: [u8; 4], row: &[u8]) {
        self.note(row.len() % RECORD_LENGTH == RECORD_LENGTH - 1, "row of a byte too few");
        self.note(row.len() % RECORD_LENGTH == 1, "row of a byte too many");
        let whole = row.chunks_exact(RECORD_LENGTH);
        let outside = whole.map(|record| read_image(&record[1..])).any(|image| image.is_err());
        self.note(outside, "9 where an image is out of range");
        let unknown = naming_of(event[0]) == Naming::Nothing;
        self.note(unknown, "9 where the event is of unknown kind");
    }

    fn see_damaged_record(&mut self, name: u8, event: [u8; 4], row: &[u8]) {
        let records: Vec<&[u8]> = row.chunks(RECORD_LENGTH).collect();
        let outside: Vec<bool> =
            records.iter().map(|record| read_image(&record[1..]) == Err(OUT_OF_RANGE)).collect();
        let several = records.len() > 1;
        self.note(several && outside[0], "16 in the first of several records");
        let last = outside.len() - 1;
        self.note(several && outside[last], "16 in the last of several records");
        let addresses = || records.iter().map(|record| record[0]);
        self.note(has_twice(addresses()), "16 where two addresses are equal");
        self.note(records.len() > MOST_DEVICES, "16 above 16 records");
        let named = match naming_of(event[0]) {
            Naming::Address => addresses().position(|address| address == name),
            Naming::Place => Some(usize::from(name)).filter(|place| *place <= last),
            Naming::All => return,
            Naming::Nothing => {
                return self.note(true, "16 in a row where the event is of unknown kind");
            }
        };
        self.note(named.is_none(), "16 where the name is not in the row");
        let other = named.is_some_and(|place| !outside[place]);
        self.note(other, "16 in a record that the event is not for");
    }

    fn see_refused_row(&mut self, number: u8, name: u8, event: [u8; 4], shelf: &Shelf) {
        let naming = naming_of(event[0]);
        let names = matches!(naming, Naming::Address | Naming::Place);
        let of = |records: &[Record]| has_twice(records.iter().map(|record| record.address));
        let count = shelf.row.len();
        self.note(naming == Naming::Nothing, &format!("{number} for an unknown kind"));
        match number {
            EMPTY_ROW => {
                self.note(naming == Naming::All, "5 for an event that reaches all");
                self.note(names, "5 for an event that names something");
            }
            ROW_TOO_LONG => {
                self.note(count < 19, &format!("6 for {count} records"));
                self.note(of(&shelf.row), "6 where two addresses are equal");
            }
            _ => {
                self.note(naming == Naming::All, "17 for an event that reaches all");
                let absent = shelf.place_named(name, event[0]).is_none();
                self.note(absent, "17 where the name is not in the row");
                let own = shelf.row.iter().filter(|record| record.address == name).count() == 1;
                let own = own && naming == Naming::Address;
                self.note(own, "17 for an event whose device has an address of its own");
            }
        }
    }

    fn see_good_row(&mut self, name: u8, event: [u8; 4], shelf: &Shelf) {
        let (naming, count) = (naming_of(event[0]), shelf.row.len());
        self.note(count == 1, "row of one device");
        self.note(count == MOST_DEVICES, "row of 16 devices");
        let of = |kind| shelf.row.iter().any(|record| record.device.kind == kind);
        let both = of(Kind::Pca9641) && of(Kind::Tpt29641);
        self.note(both, "both kinds of part in one row");
        let kind = EVENT_NAMES.get(usize::from(event[0])).copied().unwrap_or_default();
        let absent = !shelf.row.iter().any(|record| record.address == name);
        let absent = absent && usize::from(name) >= count;
        match (naming, shelf.place_named(name, event[0])) {
            (Naming::Nothing, _) => {
                self.note(absent, "unknown kind beside a name that is not in the row");
            }
            (_, None) => {
                self.note(true, &not_in_the_row(kind));
                self.see_not_in_the_row(name, event, shelf);
            }
            (Naming::All, _) => {
                self.note(absent, &any_name(kind));
                self.see_event_for_all(kind, event, shelf);
            }
            (_, Some(place)) => self.see_event_for_one(kind, event, shelf, place),
        }
    }

    fn see_not_in_the_row(&mut self, name: u8, event: [u8; 4], shelf: &Shelf) {
        let field = read_event(event) == Err(3);
        self.note(field, "18 where a field of the event is out of range");
        let count = shelf.row.len();
        if naming_of(event[0]) == Naming::Place {
            self.note(usize::from(name) == count, "18 for the place after the last");
            let address = shelf.row.iter().any(|record| record.address == name);
            self.note(address, "18 for a place that is an address");
        } else {
            let place = usize::from(name) < count;
            self.note(place, "18 for an address that is the number of a place");
        }
    }

    fn see_event_for_one(&mut self, kind: &str, event: [u8; 4], shelf: &Shelf, place: usize) {
        let Record { address, device } = &shelf.row[place];
        let number = device.clone().step(event)[0];
        let several = shelf.row.len() > 1;
        self.note(several && number < 2, &reaches_one(kind));
        let outside = !(0x08..=0x77).contains(address) && naming_of(event[0]) == Naming::Address;
        self.note(outside && number < 2, "address outside 08h to 77h named");
        if several && number > 2 {
            let sight = format!("event refused with {number} for one of several devices");
            self.note(true, &sight);
        }
        if let (0, Ok(Event::Stop { master })) = (number, read_event(event)) {
            let open = |record: &Record| record.device.masters[master].port != Port::AtRest;
            let others = shelf.row.iter().filter(|record| open(record)).count() > 1;
            self.note(others, "STOP for one device, the port of another stays open");
        }
    }

    fn see_event_for_all(&mut self, kind: &str, event: [u8; 4], shelf: &Shelf) {
        let count = shelf.row.len();
        let mut after = shelf.clone();
        let number = after.step(0, event)[0];
        if count < 2 {
            return;
        }
        self.note(number == 0, &reaches_all(kind));
        self.note(number == 1, "GENERAL CALL not acknowledged by several devices");
        self.note(number == 3, "event refused with 3 for all of several devices");
        let owners: Vec<_> = shelf.row.iter().map(|record| record.device.owner()).collect();
        let differ = owners.contains(&Some(0)) && owners.contains(&Some(1));
        self.note(differ, "different owners in one row");
        let moved = owners.iter().zip(&after.row);
        let moved = moved.filter(|(was, record)| **was != record.device.owner()).count();
        let some = (1..count).contains(&moved) && event[0] == 6;
        self.note(some, "TICK that moves an owner at one place and not at another");
        if let Ok(Event::GeneralCall { master, code: SOFT_RESET }) = read_event(event) {
            let holds = |record: &Record| record.device.masters[master].has(SMBUS_SWRST);
            let held = shelf.row.iter().filter(|record| holds(record)).count();
            let first = holds(&shelf.row[0]);
            self.note(first && held == 1, "soft reset that holds place 0 alone");
            let other = !first && held > 0;
            self.note(other, "soft reset that holds another place and not place 0");
            self.note(held == count, "soft reset that holds every place");
            self.note(held == 0, "soft reset that holds no place");
        }
    }

    /// Looks at a place shown.
    pub fn see_shelf_show(&mut self, place: u8, row: &[u8]) {
        let Some(shelf) = read_row(row).ok().filter(|shelf| shelf.refusal().is_none()) else {
            return;
        };
        let at = usize::from(place);
        self.note(at == 0, "place 0 shown");
        self.note(at == 15 && shelf.row.len() == 16, "place 15 shown");
        self.note(at == shelf.row.len(), "place after the last shown");
        let owner = |record: &Record| record.device.owner();
        let here = shelf.row.get(at).and_then(owner);
        let other = here.is_some() && here != owner(&shelf.row[0]);
        self.note(other, "owner shown that place 0 has not");
    }

    /// Looks at a fresh row made in a buffer.
    pub fn see_shelf_fresh(&mut self, slots: &[u8], row: &[u8]) {
        let (count, records) = (slots.len() / 2, row.len() / RECORD_LENGTH);
        let paired = slots.len().is_multiple_of(2);
        let whole = paired && row.len().is_multiple_of(RECORD_LENGTH);
        self.note(!paired, "slots not in pairs");
        self.note(whole && records == count + 1, "row of one record too many for its slots");
        self.note(whole && records + 1 == count, "row of one record too few for its slots");
        self.note(count == 0 && row.len() == RECORD_LENGTH, "no slots and a row for one");
        if !whole || records != count {
            return;
        }
        let equal = has_twice(slots.chunks(2).map(|slot| slot[0]));
        let kinds: Vec<u8> = slots.chunks(2).map(|slot| slot[1]).collect();
        let unknown = kinds.iter().any(|kind| *kind > 1);
        let long = count > MOST_DEVICES;
        self.note(long && equal, "slots above 16 where two addresses are equal");
        self.note(long && unknown, "slots above 16 where a kind is unknown");
        self.note(!long && equal && unknown, "slots with equal addresses where a kind is unknown");
        if !long && !equal && !unknown {
            self.note(count == 1, "fresh row of one device");
            self.note(count == MOST_DEVICES, "fresh row of 16 devices");
            let both = kinds.contains(&0) && kinds.contains(&1);
            self.note(both, "fresh row of both kinds of part");
            let outside = read_row(row) == Err(OUT_OF_RANGE);
            self.note(outside, "fresh row over one out of range");
        }
    }
}
