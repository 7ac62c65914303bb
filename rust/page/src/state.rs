//! The device after one event, or after each: every register as both controllers would read it, and what else can
//! be seen of it.
//!
//! The registers are read of a standing device that takes the same events, and a read is no event. What stands in no
//! register is read off its image.

use std::fmt::Write;

use gunwaleish::{Device, Master, Register};
use gunwaleish_tool::commands::explain::remarks;
use gunwaleish_tool::json::{object, Value};
use gunwaleish_tool::script::{line_at, shown};
use gunwaleish_tool::shelf::words::{digits, stands};
use gunwaleish_tool::story::{Scene, Step, Story};
use gunwaleish_tool::words;

use crate::fields::{Answer, Request};
use crate::image;
use crate::traces::story;

/// The event as a script has it.
fn in_script(step: &Step) -> String {
    let at = (!step.answer.outcome.is_refused()).then(|| step.before.map(|own| own.pointer));
    line_at(step.event, 1, at)
}

/// The answer that shows the fresh device: to bytes that are no event, which change nothing.
fn at_power_up(device: &Device) -> gunwaleish::Answer {
    device.clone().step([0xFF, 0, 0, 0])
}

/// One entry, in words: the state after the event of this number, from 1; 0 is power-up.
pub fn state(request: &Request) -> Answer {
    let story = match story(request, 2) {
        Ok(story) => story,
        Err(refused) => return refused,
    };
    let word = request.text(1);
    let number = word.parse().ok().filter(|number| *number <= story.steps.len());
    let Some(number) = number else {
        let events = words::count(story.steps.len(), "event");
        return Answer::refused(format!(
            "there is no event '{}': the trace has {events}",
            shown(&word)
        ));
    };
    Answer::ok(in_words(&story, number, &story.device(number)).to_string())
}

fn in_words(story: &Story, number: usize, device: &Device) -> Value {
    let step = number.checked_sub(1).and_then(|place| story.steps.get(place));
    let answer = step.map_or_else(|| at_power_up(device), |step| step.answer);
    let scene = step.map(|step| step.scene);
    let stood = stands(
        &answer,
        scene.map_or([false; 2], |scene| scene.waits),
        scene.is_some_and(|scene| scene.hung),
    );
    let text = |words: Option<String>| Value::from(words.unwrap_or_default());
    object([
        ("event", number.into()),
        ("of", story.steps.len().into()),
        ("tick", step.map_or(0, |step| step.tick).into()),
        ("came", step.map_or("power-up".to_string(), words::event).into()),
        ("script", text(step.map(in_script))),
        ("outcome", text(step.map(|step| words::outcome(step.answer.outcome)))),
        ("refused", step.is_some_and(|step| step.answer.outcome.is_refused()).into()),
        ("answer", text(step.map(|step| digits(&step.answer)))),
        ("changed", step.map_or(vec![], remarks).into()),
        ("stands", stood.into()),
        ("registers", registers(device).into()),
        ("each", each(device, &answer, scene.as_ref()).into()),
        ("shared", shared(device, &answer, scene.as_ref()).into()),
    ])
}

/// Name, both values, and the names of their bits.
fn registers(device: &Device) -> Vec<Value> {
    let row = |register: Register| {
        let values = Master::BOTH.map(|m| device.read(m, register));
        let hex = values.map(|value| format!("{value:02X}h"));
        let bits = values.map(|value| words::bits(register.number(), value).unwrap_or_default());
        Value::from([[register.to_string()].as_slice(), &hex, &bits].concat())
    };
    Register::ALL.map(row).into()
}

fn yes(flag: bool) -> &'static str {
    if flag {
        "yes"
    } else {
        "no"
    }
}

fn who(master: Option<Master>) -> String {
    master.map_or("nobody".to_string(), |m| format!("controller {m}"))
}

/// Name, and a value of each controller.
fn each(device: &Device, answer: &gunwaleish::Answer, scene: Option<&Scene>) -> Vec<Value> {
    let row = |name: &str, value: &dyn Fn(Master) -> String| {
        let [first, second] = Master::BOTH.map(value);
        Value::from(vec![name.to_string(), first, second])
    };
    let asserted = [answer.int0, answer.int1];
    let port = |m: Master| match image::PORT[m as usize].of(device) {
        0 => "at rest",
        1 => "open",
        _ => "open for writing",
    };
    let pointer = |m: Master| image::POINTER[m as usize].of(device) as u8;
    let requests = |m: Master| device.read(m, Register::Contr) & 1 != 0;
    let waits = |m: Master| scene.is_some_and(|scene| scene.waits[m as usize]);
    vec![
        row("asks for the bus", &|m| yes(requests(m)).to_string()),
        row("waits", &|m| yes(waits(m)).to_string()),
        row("INT", &|m| if asserted[m as usize] { "asserted" } else { "not asserted" }.to_string()),
        row("port", &|m| port(m).to_string()),
        row("pointer", &|m| format!("{} ({})", pointer(m), words::register(pointer(m)))),
        row("auto-increment", &|m| {
            if image::AUTO[m as usize].is_set(device) { "on" } else { "off" }.to_string()
        }),
        row("own mailbox", &|m| {
            if image::MAIL_FULL[m as usize].is_set(device) { "full" } else { "empty" }.to_string()
        }),
    ]
}

/// Name and value.
fn shared(device: &Device, answer: &gunwaleish::Answer, scene: Option<&Scene>) -> Vec<Value> {
    let level = |high: bool| if high { "high" } else { "low" }.to_string();
    let line = |field: image::Field| level(field.is_set(device));
    let drive = |field: image::Field| {
        if field.is_set(device) { "released" } else { "pulls low" }.to_string()
    };
    let count = |field: image::Field| field.of(device).to_string();
    let switch = match (answer.connected, image::pulses(device)) {
        (Some(m), _) => who(Some(m)),
        (None, Some(pulses)) => format!("initialising, {}", words::count(pulses.into(), "PULSE")),
        (None, None) => "apart".to_string(),
    };
    let ground = answer.ground.map_or("no claim".to_string(), |ground| ground.to_string());
    let rows = [
        ("owner", who(answer.owner)),
        ("claimant", who(scene.and_then(|scene| scene.claimant))),
        ("ground", ground),
        ("switch", switch),
        (image::LAST.name, who(image::last_granted(device))),
        (image::RESERVE.name, count(image::RESERVE)),
        (image::IDLE.name, count(image::IDLE)),
        (image::HOLD.name, count(image::HOLD)),
        (image::LOW_SCL.name, count(image::LOW_SCL)),
        (image::LOW_SDA.name, count(image::LOW_SDA)),
        ("SCL", level(answer.scl)),
        ("SDA", level(answer.sda)),
        (image::OUTSIDE_SCL.name, line(image::OUTSIDE_SCL)),
        (image::OUTSIDE_SDA.name, line(image::OUTSIDE_SDA)),
        (image::DRIVE_SCL.name, drive(image::DRIVE_SCL)),
        (image::DRIVE_SDA.name, drive(image::DRIVE_SDA)),
        (image::INT_IN.name, line(image::INT_IN)),
        (image::BUSY.name, yes(image::BUSY.is_set(device)).to_string()),
        ("hung", yes(scene.is_some_and(|scene| scene.hung)).to_string()),
        (image::INIT_FAIL.name, yes(image::INIT_FAIL.is_set(device)).to_string()),
    ];
    rows.map(|(name, value)| Value::from(vec![name.to_string(), value])).into()
}

/// Every entry, in numbers.
pub fn states(request: &Request) -> Answer {
    let story = match story(request, 1) {
        Ok(story) => story,
        Err(refused) => return refused,
    };
    let mut device = Device::fresh(story.part);
    let mut text = String::with_capacity(512 * (story.steps.len() + 1));
    let names = Value::from(Register::ALL.map(|register| register.to_string()).to_vec());
    let _ = write!(
        text,
        "{{\"part\":\"{}\",\"address\":{},\"pins\":\"{}\",\"registers\":{names},\"states\":[",
        story.part, story.address, story.pins
    );
    entry(&mut text, &device, None);
    for step in &story.steps {
        device.step(step.event);
        text.push_str(",\n");
        entry(&mut text, &device, Some(step));
    }
    text.push_str("]}");
    Answer::ok(text)
}

/// The fields of an entry, put together by hand: there are a hundred thousand of them in a long trace.
struct Fields<'a>(&'a mut String);

impl Fields<'_> {
    fn name(&mut self, name: &str) {
        self.0.push('"');
        self.0.push_str(name);
        self.0.push_str("\":");
    }

    fn digits(&mut self, value: u16) {
        let mut rest = value;
        let mut digits = [b'0'; 5];
        let mut from = digits.len();
        while from == digits.len() || rest > 0 {
            from -= 1;
            digits[from] += (rest % 10) as u8;
            rest /= 10;
        }
        digits[from..].iter().for_each(|&digit| self.0.push(digit.into()));
    }

    /// A number, or null, after a name.
    fn put(&mut self, name: &str, value: impl Into<Option<u16>>) {
        self.name(name);
        match value.into() {
            Some(value) => self.digits(value),
            None => self.0.push_str("null"),
        }
        self.0.push(',');
    }

    fn list(&mut self, values: impl IntoIterator<Item = u16>) {
        let mut before = '[';
        for value in values {
            self.0.push(before);
            self.digits(value);
            before = ',';
        }
        self.0.push(']');
    }

    fn pair(&mut self, name: &str, values: [u16; 2]) {
        self.name(name);
        self.list(values);
        self.0.push(',');
    }

    /// Words without a quote or a backslash.
    fn words(&mut self, name: &str, words: &str) {
        self.name(name);
        self.0.push('"');
        self.0.push_str(words);
        self.0.push_str("\",");
    }
}

fn entry(text: &mut String, device: &Device, step: Option<&Step>) {
    let answer = step.map_or_else(|| at_power_up(device), |step| step.answer);
    let number = |master: Option<Master>| master.map(|m| u16::from(m.number()));
    let scene = step.map(|step| &step.scene);
    text.push('{');
    let mut fields = Fields(text);
    fields.put("event", step.map_or(0, |step| step.number as u16));
    fields.put("tick", step.map_or(0, |step| step.tick as u16));
    fields.words("script", &step.map_or(String::new(), in_script));
    fields.put("refused", step.map_or(0, |step| u16::from(step.answer.outcome.is_refused())));
    fields.put("outcome", step.map(|step| u16::from(step.answer.outcome.number())));
    fields.words("answer", &step.map_or(String::new(), |step| digits(&step.answer)));
    fields.put("owner", number(answer.owner));
    fields.put("claimant", number(scene.and_then(|scene| scene.claimant)));
    fields.put("ground", answer.ground.map(|ground| u16::from(ground.number())));
    fields.put("switch", number(answer.connected));
    fields.put("pulses", image::pulses(device));
    fields.put("last", number(image::last_granted(device)));
    fields.pair("waits", scene.map_or([0; 2], |scene| scene.waits.map(u16::from)));
    fields.pair("int", [answer.int0, answer.int1].map(u16::from));
    fields.put("scl", u16::from(answer.scl));
    fields.put("sda", u16::from(answer.sda));
    fields.put("hung", u16::from(scene.is_some_and(|scene| scene.hung)));
    numbers(&mut fields, device);
    fields.name("registers");
    for (m, before) in Master::BOTH.into_iter().zip(['[', ',']) {
        fields.0.push(before);
        fields.list(Register::ALL.map(|register| device.read(m, register).into()));
    }
    text.push_str("]}");
}

/// What the image has.
fn numbers(fields: &mut Fields, device: &Device) {
    let shared = [
        ("reserve", image::RESERVE),
        ("idle", image::IDLE),
        ("hold", image::HOLD),
        ("low_scl", image::LOW_SCL),
        ("low_sda", image::LOW_SDA),
        ("int_in", image::INT_IN),
        ("busy", image::BUSY),
        ("init_fail", image::INIT_FAIL),
    ];
    shared.into_iter().for_each(|(name, field)| fields.put(name, field.of(device)));
    let each = [
        ("port", image::PORT),
        ("pointer", image::POINTER),
        ("auto", image::AUTO),
        ("mail_full", image::MAIL_FULL),
    ];
    each.into_iter().for_each(|(name, of)| fields.pair(name, of.map(|field| field.of(device))));
}
