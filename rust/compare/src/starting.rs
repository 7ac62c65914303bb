//! All orders of two start-up scripts on both sides (document 02, #109).

use gunwaleish::{boundary, Bus};
use model::orders::{bytes_of_orders, patterns, MOST_SCRIPT};
use model::rng::Rng;
use model::scripts::{damage_scripts, good_scripts, Scripts};
use model::trace::{four, hex};
use model::{list_orders, Listed};

use crate::check::pattern;
use crate::figures::{differ, Difference, Figures};

/// Lists the orders of two scripts, up to the limit, into a buffer of this room. Gives what the model
/// said.
pub fn check_orders(scripts: &Scripts, limit: usize, room: usize) -> Result<Listed, Difference> {
    let [script0, script1] = scripts;
    let mut expected = pattern(room);
    let said = list_orders(script0, script1, limit, &mut expected);
    let mut listed = pattern(room);
    let packed = boundary::list_orders(script0, script1, limit, &mut listed);
    if packed != u64::from(said.number) + 256 * said.count as u64 {
        return differ(format!(
            "reports differ\n  model:   number {}, {} orders\n  library: number {}, {} orders",
            said.number,
            said.count,
            packed % 256,
            packed / 256
        ));
    }
    if let Some(place) = (0..room).find(|&at| expected[at] != listed[at]) {
        let order = match place < said.count {
            true => format!("order {} ({})", place + 1, digits(scripts, place)),
            false => format!("byte {place}, which had to stay"),
        };
        let (model, library) = (expected[place], listed[place]);
        return differ(format!("{order}: model {model:02X}h, library {library:02X}h"));
    }
    same_in_rust(scripts, limit)?;
    Ok(said)
}

/// The order of this place as its pattern.
fn digits(scripts: &Scripts, place: usize) -> String {
    let [events0, events1] = scripts.each_ref().map(|script| script.len() / 4);
    patterns(events0, events1)[place].iter().map(usize::to_string).collect()
}

/// The safe crate says the same in its own types. It takes whole events, and its own buffer has room,
/// so that it meets neither 5 nor 9.
fn same_in_rust(scripts: &Scripts, limit: usize) -> Result<(), Difference> {
    if scripts.iter().any(|script| script.len() % 4 != 0) {
        return Ok(());
    }
    let events = |script: &[u8]| -> Vec<[u8; 4]> { script.chunks(4).map(four).collect() };
    let [script0, script1] = scripts;
    let said = gunwaleish::list_orders(&events(script0), &events(script1), limit);
    let expected = bytes_of_orders(script0, script1)
        .map(|bytes| bytes.into_iter().take(limit).map(Bus::from).collect::<Vec<_>>());
    match said.map_err(|refusal| refusal.number()) == expected {
        true => Ok(()),
        false => differ("the Rust crate lists other orders or another number"),
    }
}

/// Random calls: good scripts with limits of none, one, some, all and more, in rooms that are too
/// small, exact and larger; and damaged scripts.
pub fn order_calls(rng: &mut Rng, figures: &mut Figures) {
    for _ in 0..3 {
        let scripts = good_scripts(rng);
        let number = bytes_of_orders(&scripts[0], &scripts[1]).map_or(0, |bytes| bytes.len());
        let some = rng.below(number as u64 + 1) as usize;
        let limit = rng.pick(&[0, 1, some, number, number + 1, usize::MAX]);
        let count = limit.min(number);
        figures.orders(&scripts, limit, count + rng.pick(&[0, 0, 1, 40]));
        figures.orders(&scripts, limit, rng.below(count as u64 + 1) as usize);
        let mut damaged = scripts.clone();
        damage_scripts(rng, &mut damaged);
        figures.damage("scripts", &scripts, &damaged);
        let room = rng.pick(&[0, count, 930]);
        figures.orders(&damaged, rng.pick(&[0, 1, limit]), room);
    }
}

/// Scripts of every two lengths up to nine events, and those with a byte to three more, with limits
/// and rooms about the number of orders.
pub fn orders_of_every_length(figures: &mut Figures) {
    let asks = [[0, 0, 1, 0], [1, 0, 5, 0], [3, 0, 0, 0], [6, 0, 0, 0], [2, 0, 0, 0], [8, 0, 0, 0]];
    let script = |m: u8, length: usize| -> Vec<u8> {
        let mine = asks.map(|event| if event[0] < 4 { [event[0], m, event[2], 0] } else { event });
        mine.concat().into_iter().cycle().take(length).collect()
    };
    for bytes0 in 0..=4 * MOST_SCRIPT + 12 {
        for bytes1 in 0..=4 * MOST_SCRIPT + 12 {
            let scripts = [script(0, bytes0), script(1, bytes1)];
            let number = bytes_of_orders(&scripts[0], &scripts[1]).map_or(1, |bytes| bytes.len());
            for (limit, room) in [(0, 0), (1, 0), (number, number - 1), (number - 1, number - 1)] {
                figures.orders(&scripts, limit, room);
            }
            figures.orders(&scripts, usize::MAX, number + 3);
        }
    }
}

/// Limits and rooms about none, half and all of the orders that the two scripts of an order sheet have
/// (#106); and two scripts whose orders tell the part: on a TPT29641 written bytes roll past register 7
/// to CONTR.
pub fn limits_of_orders(figures: &mut Figures) {
    let script = |m: u8| -> Vec<u8> {
        [[0, m, 3, 0], [1, m, 1, 0], [3, m, 0, 0], [0, m, 1, 0], [1, m, 5, 0], [3, m, 0, 0]]
            .concat()
    };
    let scripts = [script(0), script(1)];
    for about in (0..4).chain(460..465).chain(920..928) {
        for room in [about, about + 1, usize::saturating_sub(about, 1)] {
            figures.orders(&scripts, about, room);
        }
        figures.orders(&scripts, usize::MAX, about);
    }
    let rolls = |m: u8| -> Vec<u8> {
        [[0, m, 0x87, 0], [1, m, 1, 0], [1, m, 1, 0], [1, m, 1, 0], [3, m, 0, 0]].concat()
    };
    figures.orders(&[rolls(0), rolls(1)], usize::MAX, 252);
}

impl Figures {
    /// Lists the orders of two scripts on both sides and counts it.
    pub fn orders(&mut self, scripts: &Scripts, limit: usize, room: usize) {
        match check_orders(scripts, limit, room) {
            Ok(listed) => {
                self.answered("list orders", listed.number);
                self.listed_orders(listed.count);
                self.sights.see_orders(scripts, limit, room);
            }
            Err(difference) => {
                let call = format!("script 1 {}, limit {limit}, room {room}", hex(&scripts[1]));
                self.tell("script0", &scripts[0], format!("{call}; {difference}"))
            }
        }
    }
}
