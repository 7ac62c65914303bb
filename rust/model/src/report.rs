//! The report program of document 02, #112: it "reads traces, each after its two-byte low-first
//! length, and prints a line a controller: number, owned, connected, waited, in decimal with single
//! spaces".

use crate::share::{Totals, TOO_MANY_TRACES};

/// What stands in the input after a length.
#[derive(Clone, Copy, Debug, PartialEq, Eq)]
pub enum Piece<'a> {
    /// As many bytes as the length says. A length of 0 is a trace of no bytes.
    Whole(&'a [u8]),
    /// The input "ends inside a length or a trace".
    Cut,
}

/// The input that has these traces: the length of each in two bytes, low first, then the trace.
pub fn input_of(traces: &[Vec<u8>]) -> Vec<u8> {
    let mut bytes = vec![];
    for trace in traces {
        let length = u16::try_from(trace.len()).expect("a trace here has at most 65535 bytes");
        bytes.extend(length.to_le_bytes());
        bytes.extend(trace);
    }
    bytes
}

/// The pieces of an input, one after the other.
pub fn pieces(input: &[u8]) -> Vec<Piece<'_>> {
    let mut rest = input;
    let mut pieces = vec![];
    while !rest.is_empty() {
        let piece = first_piece(rest);
        rest = match piece {
            Piece::Whole(trace) => &rest[2 + trace.len()..],
            Piece::Cut => &[],
        };
        pieces.push(piece);
    }
    pieces
}

fn first_piece(input: &[u8]) -> Piece<'_> {
    let [low, high, rest @ ..] = input else {
        return Piece::Cut;
    };
    let length = usize::from(*low) + 256 * usize::from(*high);
    rest.get(..length).map_or(Piece::Cut, Piece::Whole)
}

/// The totals over an input, and whether it had more traces than are counted.
pub fn totals_of_input(input: &[u8]) -> (Totals, bool) {
    let mut totals = Totals::default();
    let mut past = false;
    for piece in pieces(input) {
        let before = totals.traces;
        let number = match piece {
            Piece::Whole(trace) => totals.add(trace),
            Piece::Cut => totals.add_cut(),
        };
        // A trace that is itself refused with 6 is counted.
        past |= number == TOO_MANY_TRACES && totals.traces == before;
    }
    (totals, past)
}

/// The text that the program prints: "the two lines, and R6 after them past 65,535".
pub fn share_report(input: &[u8]) -> String {
    let (totals, past) = totals_of_input(input);
    let line = |m: usize| {
        let (owned, connected, waited) = (totals.owned[m], totals.connected[m], totals.waited[m]);
        format!("{m} {owned} {connected} {waited}\n")
    };
    let end = if past { "R6\n" } else { "" };
    format!("{}{}{end}", line(0), line(1))
}
