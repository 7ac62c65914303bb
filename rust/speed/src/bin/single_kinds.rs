//! `single_kinds TIMES`: full traces of one kind of event alone, the library against the tuned stepper; the best of so many counts. Nothing is timed
//! before both answer alike.

use std::hint::black_box;

use model::traces::trace_of;
use speed::timing::by_turns;
use stepper::tuned;

const EVENTS: usize = 4096;
const ROOM: usize = 4 * EVENTS;

/// What comes first, and then each event by its number and a random one.
type Body = fn(usize, u8) -> [u8; 4];
type Case = (&'static str, [[u8; 4]; 2], Body);

const BOTH_AT_CONTR: [[u8; 4]; 2] = [[0, 0, 1, 0], [0, 1, 1, 0]];
const BOTH_AT_RT: [[u8; 4]; 2] = [[0, 0, 3, 0], [0, 1, 3, 0]];
const BOTH_AT_REST: [[u8; 4]; 2] = [[6, 0, 0, 0]; 2];

const CASES: [Case; 15] =
    [
        ("COMMAND", BOTH_AT_REST, |_, any| [0, any % 2, 3, 0]),
        ("READ", BOTH_AT_REST, |_, any| [2, any % 2, 0, 0]),
        ("WRITE of RT", BOTH_AT_RT, |_, any| [1, any % 2, any, 0]),
        ("WRITE of CONTR, no request", BOTH_AT_CONTR, |_, any| [1, any % 2, any & 0xF8, 0]),
        ("WRITE of CONTR, any", BOTH_AT_CONTR, |_, any| [1, any / 2 % 2, any, 0]),
        ("COMMAND and STOP", BOTH_AT_REST, |at, any| {
            if at % 2 == 0 {
                [0, 0, any % 8, 0]
            } else {
                [3, 0, 0, 0]
            }
        }),
        ("STOP, refused", BOTH_AT_REST, |_, any| [3, any % 2, 0, 0]),
        ("PAIR", BOTH_AT_RT, |_, any| [4, any, any / 2, 0]),
        ("PAIR, refused", BOTH_AT_REST, |_, any| [4, any, any / 2, 0]),
        ("LINES", BOTH_AT_REST, |_, any| [5, any % 2, any / 2 % 2, any / 4 % 2]),
        ("RESET", BOTH_AT_REST, |_, _| [8, 0, 0, 0]),
        ("GENERAL CALL 06h", BOTH_AT_REST, |_, any| [9, any % 2, 6, 0]),
        ("GENERAL CALL 07h", BOTH_AT_REST, |_, any| [9, any % 2, 7, 0]),
        ("unknown kind", BOTH_AT_REST, |_, any| [20, any % 2, 7, 0]),
        ("field out of range", BOTH_AT_REST, |_, _| [0, 2, 7, 0]),
    ];

fn main() {
    let times = match std::env::args().nth(1).map(|word| word.parse::<usize>()) {
        None => 150,
        Some(Ok(times)) if times > 0 => times,
        Some(_) => {
            eprintln!("single_kinds [TIMES]: TIMES is a number from 1 on");
            std::process::exit(2);
        }
    };
    println!("Full traces of one kind of event, ns an event, best of {times} by turns:");
    for (name, first, body) in CASES {
        let trace = trace_of([0; 4], &events(first, body));
        let (mut ours, mut theirs) = (vec![0; ROOM], vec![0; ROOM]);
        let answered = gunwaleish::run_trace(&trace, &mut ours).is_ok();
        if !answered || tuned::run_trace(&trace, &mut theirs).is_err() || ours != theirs {
            println!("{name}: not answered alike; nothing is timed");
            std::process::exit(1);
        }
        let [library, tuned] = by_turns(
            times,
            EVENTS,
            [
                &mut || {
                    let _ = black_box(gunwaleish::run_trace(black_box(&trace), &mut ours));
                },
                &mut || {
                    let _ = black_box(tuned::run_trace(black_box(&trace), &mut theirs));
                },
            ],
        );
        println!("{name:<27} library {:5.1}, tuned {:5.1}", library.best, tuned.best);
    }
}

fn events(first: [[u8; 4]; 2], body: Body) -> Vec<[u8; 4]> {
    let mut seed: u32 = 12345;
    let rest = (2..EVENTS).map(|at| {
        seed = seed.wrapping_mul(1_664_525).wrapping_add(1_013_904_223);
        body(at, (seed >> 24) as u8)
    });
    first.into_iter().chain(rest).collect()
}
