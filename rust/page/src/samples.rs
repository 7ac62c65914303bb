//! The samples that are built in, so that a page has something to show before a file is dropped.

use gunwaleish_tool::json::{object, Value};
use gunwaleish_tool::script::shown;

use crate::fields::{Answer, Request};

/// A file of the repository, by its name there.
macro_rules! file {
    ($name:literal) => {
        ($name, include_bytes!(concat!("../../../", $name)) as &[u8])
    };
}

/// Every file.
pub const FILES: &[(&str, &[u8])] = &[
    file!("traces/m1.script"),
    file!("traces/box14-rt00.script"),
    file!("traces/box14-rt50.script"),
    file!("traces/box14-idle.script"),
    file!("traces/box14-idle-tpt29641.script"),
    file!("traces/recovery.script"),
    file!("traces/hung-bus.script"),
    file!("traces/mail.script"),
    file!("traces/takeover.script"),
    file!("traces/pair.script"),
    file!("traces/burst.script"),
    file!("traces/burst-tpt29641.script"),
    file!("traces/refused-cut.trace"),
    file!("traces/box14.capture"),
    file!("traces/orders/start0.script"),
    file!("traces/orders/start1.script"),
    file!("traces/orders/start1-no-last-stop.script"),
    file!("traces/shelf/chassis.shelf"),
    file!("traces/shelf/hang.script"),
    file!("sheets/board.sheet"),
    file!("sheets/house.sheet"),
    file!("sheets/board-box14.sheet"),
    file!("sheets/board-without-limit.sheet"),
    file!("releases/incident/board.sheet"),
    file!("releases/incident/house.sheet"),
    file!("releases/safe/board.sheet"),
    file!("releases/safe/house.sheet"),
    file!("releases/safe/start0.script"),
    file!("releases/safe/start1.script"),
    file!("releases/safe/shelf/chassis.shelf"),
    file!("releases/safe/shelf/takeover.script"),
    file!("releases/safe/traces/handover.trace"),
    file!("releases/safe/traces/turns.trace"),
];

/// What is shown as one: a name, what it is, its files, and a line about it.
struct Sample {
    name: &'static str,
    kind: &'static str,
    files: &'static [&'static str],
    says: &'static str,
}

const fn sample(
    name: &'static str,
    kind: &'static str,
    files: &'static [&'static str],
    says: &'static str,
) -> Sample {
    Sample { name, kind, files, says }
}

const SAMPLES: &[Sample] = &[
    sample(
        "box14-rt00",
        "script",
        &["traces/box14-rt00.script"],
        "Box 14 left empty: controller 0 stalls with RT 00h, and its partner is never granted the bus.",
    ),
    sample(
        "box14-rt50",
        "script",
        &["traces/box14-rt50.script"],
        "The same but for one byte, a reserve of 50 ms: the partner is granted at the 50th tick.",
    ),
    sample(
        "m1",
        "script",
        &["traces/m1.script"],
        "Controller 0 asks for the bus, is granted it at its STOP, and reads CONTR.",
    ),
    sample(
        "recovery",
        "script",
        &["traces/recovery.script"],
        "Box 14 left empty, and the way back: the partner resets and owns the bus with a reserve of 50.",
    ),
    sample(
        "box14-idle",
        "script",
        &["traces/box14-idle.script"],
        "Box 14 left empty with the idle timer on, on a PCA9641: granted at the 101st idle tick.",
    ),
    sample(
        "box14-idle-tpt29641",
        "script",
        &["traces/box14-idle-tpt29641.script"],
        "The same events on a TPT29641: granted at the 151st idle tick.",
    ),
    sample(
        "pair",
        "script",
        &["traces/pair.script"],
        "Both controllers ask in one PAIR, three times, and win on different grounds.",
    ),
    sample(
        "mail",
        "script",
        &["traces/mail.script"],
        "The controllers write to each other through their mailboxes, and the interrupt outputs tell of it.",
    ),
    sample(
        "takeover",
        "script",
        &["traces/takeover.script"],
        "Takeover words through the mailboxes: one that meets a full box is dropped, the others come once and in order.",
    ),
    sample(
        "hung-bus",
        "script",
        &["traces/hung-bus.script"],
        "SDA stays low for 501 ticks and the bus is hung; one initialisation fails, the next one succeeds.",
    ),
    sample(
        "burst",
        "script",
        &["traces/burst.script"],
        "Written bytes that run past register 7 on a PCA9641: the pointer stays at 7.",
    ),
    sample(
        "burst-tpt29641",
        "script",
        &["traces/burst-tpt29641.script"],
        "The same events on a TPT29641: the pointer rolls to 0, and the last byte asks for the bus.",
    ),
    sample(
        "refused-cut",
        "trace",
        &["traces/refused-cut.trace"],
        "A trace without its last byte, its kind of part: refused with 5.",
    ),
    sample(
        "box14.capture",
        "capture",
        &["traces/box14.capture"],
        "The upstream transfers of box 14 as a logic analyser has them; the device is at address 71, a PCA9641.",
    ),
    sample(
        "chassis",
        "shelf",
        &["traces/shelf/chassis.shelf", "traces/shelf/hang.script"],
        "Four arbiters; at place 1 SDA stays low and that bus hangs, and the others go on.",
    ),
    sample(
        "start",
        "orders",
        &["traces/orders/start0.script", "traces/orders/start1.script"],
        "The start-up scripts of a pair of sheets: in every order one controller owns the bus.",
    ),
    sample(
        "no-last-stop",
        "orders",
        &["traces/orders/start0.script", "traces/orders/start1-no-last-stop.script"],
        "Controller 1's last STOP is forgotten: in some orders nobody owns the bus.",
    ),
    sample(
        "incident",
        "sheets",
        &["sheets/board-box14.sheet", "sheets/house.sheet"],
        "The incident's sheets: both reserves are empty.",
    ),
    sample(
        "safe",
        "sheets",
        &["sheets/board.sheet", "sheets/house.sheet"],
        "Reserves of 50 and 20 ms.",
    ),
    sample(
        "without-limit",
        "sheets",
        &["sheets/board-without-limit.sheet", "sheets/house.sheet"],
        "Reserves of 0, which are ticked: without limit.",
    ),
    sample(
        "releases/incident",
        "release",
        &["releases/incident/board.sheet", "releases/incident/house.sheet"],
        "The incident's bundle: not released, a box is empty.",
    ),
    sample(
        "releases/safe",
        "release",
        &[
            "releases/safe/board.sheet",
            "releases/safe/house.sheet",
            "releases/safe/start0.script",
            "releases/safe/start1.script",
            "releases/safe/shelf/chassis.shelf",
            "releases/safe/shelf/takeover.script",
            "releases/safe/traces/handover.trace",
            "releases/safe/traces/turns.trace",
        ],
        "A safe bundle: sheets, start-up scripts, a shelf and two traces of the bench.",
    ),
];

/// All of them.
pub fn samples(_: &Request) -> Answer {
    let one = |sample: &Sample| {
        object([
            ("name", sample.name.into()),
            ("file", sample.files.first().copied().into()),
            ("files", sample.files.to_vec().into()),
            ("kind", sample.kind.into()),
            ("says", sample.says.into()),
        ])
    };
    Answer::ok(Value::from(SAMPLES.iter().map(one).collect::<Vec<_>>()).to_string())
}

/// The bytes of a file, by its name, or of a sample's first one.
pub fn bytes(request: &Request) -> Answer {
    let name = request.text(0);
    let first = SAMPLES.iter().find(|sample| sample.name == name);
    let file = first.and_then(|sample| sample.files.first()).copied().unwrap_or(&name);
    match FILES.iter().find(|(name, _)| *name == file) {
        Some((_, bytes)) => Answer::ok(*bytes),
        None => Answer::refused(format!("there is no sample '{}'", shown(&name))),
    }
}
