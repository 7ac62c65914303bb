//! The statements that the page rests on, by name, in words, and with the file that states each. A test holds
//! them to `docs/STATEMENTS.md`.

use super::html::code;
use crate::svg::escaped;

/// A statement that is proved over every run of either part.
pub struct Statement {
    pub name: &'static str,
    /// What it says, with all that it asks for.
    pub says: &'static str,
    /// The file under `crates/` that states it.
    pub file: &'static str,
}

/// Statements as a list.
pub fn listed(statements: &[&Statement]) -> String {
    let one = |statement: &&Statement| {
        format!(
            "<li>{}: {} <span class=\"small\">{}</span></li>\n",
            code(statement.name),
            escaped(statement.says),
            code(&format!("crates/{}", statement.file))
        )
    };
    let items: String = statements.iter().map(one).collect();
    format!("<p class=\"proved\">What is proved:</p>\n<ul class=\"proved\">\n{items}</ul>\n")
}

/// All of them.
pub const ALL: [&Statement; 18] = [
    &BOARD_FIRST,
    &HOUSE_ELSE,
    &ALWAYS_TICKED,
    &EMPTY_NO_EVENTS,
    &SHEETS_GUARANTEE,
    &STARTS_GUARANTEE,
    &WAIT_TELLS,
    &BOUNDED_EXACTLY,
    &RESERVE_NECESSARY,
    &IDLE_BOX_KEPT,
    &IDLE_BOX_DROPPED,
    &STANDS_AT_POWER_UP,
    &PAIR_IN_TIME,
    &HELD_UNTIL_LET_GO,
    &IDLE_TIMER_EXACT,
    &STARTS_IN_ANY_ORDER,
    &ORDERS_OF_ANY_TWO,
    &LONGEST_WAIT_UNHELD,
];

pub const BOARD_FIRST: Statement = Statement {
    name: "BoardFirst",
    says: "a box that is ticked on the board sheet is what is found, a ticked 0 too, whatever the house sheet says.",
    file: "sheets/specs/Laws.antt",
};

pub const HOUSE_ELSE: Statement = Statement {
    name: "HouseElse",
    says:
        "a box that is empty on the board sheet and ticked on the house sheet is the house sheet's.",
    file: "sheets/specs/Laws.antt",
};

pub const ALWAYS_TICKED: Statement = Statement {
    name: "AlwaysTicked",
    says: "whatever the bytes, what is found is a ticked box and the value beside it on the same sheet, or nothing: an empty \
           box never becomes a value.",
    file: "sheets/specs/Laws.antt",
};

pub const EMPTY_NO_EVENTS: Statement = Statement {
    name: "EmptyNoEvents",
    says: "a pair of sheets with an empty box yields no event at all.",
    file: "sheets/specs/Laws.antt",
};

pub const SHEETS_GUARANTEE: Statement = Statement {
    name: "SheetsGuarantee",
    says: "if the holder's reserve is 1 to 255, no reset comes, no byte is stored in the holder's RT, the holder sends its STOPs within a \
           tick, and the waiting controller keeps asking over that reserve and one tick, then it owns the bus, if that is idle \
           then and its own port at rest, else once they are; from any point after the twelve events of the sheets on, for both \
           controllers.",
    file: "guarantee/specs/Guarantee.antt",
};

pub const STARTS_GUARANTEE: Statement = Statement {
    name: "StartsGuarantee",
    says: "the same holds if the twelve events come in any order between the two controllers, with any ticks and line changes \
           between them.",
    file: "guarantee/specs/Starts.antt",
};

pub const WAIT_TELLS: Statement = Statement {
    name: "WaitTells",
    says: "the grade and the figure of each wait are told by a proved call: grade 1 is a bound behind a live holder; grade 2 one \
           behind a silent holder on an idle bus whose idle timer stays on, and none behind a live one; grade 3 none behind either.",
    file: "guarantee/specs/Waits.antt",
};

pub const BOUNDED_EXACTLY: Statement = Statement {
    name: "BoundedExactly",
    says: "a wait behind a live holder has a bound exactly if the holder's reserve is not 0.",
    file: "guarantee/specs/Necessary.antt",
};

pub const RESERVE_NECESSARY: Statement = Statement {
    name: "ReserveNecessary",
    says: "if the holder's reserve is 0, whatever else is ordered, there is for every number of ticks a wait of so many behind a \
           live holder that is not over, with no reset and no byte stored in the holder's RT.",
    file: "guarantee/specs/Necessary.antt",
};

pub const IDLE_BOX_KEPT: Statement = Statement {
    name: "IdleBoxKept",
    says: "with a reserve of 0, behind a holder that connects with 25h and is silent then, the partner owns at the part's idle limit \
           and not a tick earlier.",
    file: "guarantee/specs/Boxes.antt",
};

pub const IDLE_BOX_DROPPED: Statement = Statement {
    name: "IdleBoxDropped",
    says: "with a reserve of 0 a holder that connects with 05h and is silent then keeps its partner waiting over any number of ticks, \
           whatever the idle box says.",
    file: "guarantee/specs/Boxes.antt",
};

pub const STANDS_AT_POWER_UP: Statement = Statement {
    name: "StandsAtPowerUp",
    says: "from power-up, on either part, the twelve events leave each controller's reserve, priority and idle timer as ordered, \
           both ask, and controller 0 owns the bus.",
    file: "sheets/specs/Started.antt",
};

pub const PAIR_IN_TIME: Statement = Statement {
    name: "PairInTime",
    says: "controller 1 owns the bus at the tick after the start that makes as many as controller 0's reserve of 1 to 255, if its \
           request stands, its port is at rest and the bus is idle after that tick, with no reset and no letting go before.",
    file: "sheets/specs/Started.antt",
};

pub const HELD_UNTIL_LET_GO: Statement = Statement {
    name: "HeldUntilLetGo",
    says: "a grant with RT 00h and the idle timer off ends when its holder lets go or a reset comes, and by nothing else, however many ticks \
           pass.",
    file: "arbiter/specs/Audit.antt",
};

pub const IDLE_TIMER_EXACT: Statement = Statement {
    name: "IdleTimerExact",
    says: "a grant with RT 00h, neither let go nor reset, ends in exactly those events at which its idle timer is on and the idle count \
           stands at the part's limit: 101 on a PCA9641, 151 on a TPT29641.",
    file: "arbiter/specs/Audit.antt",
};

pub const STARTS_IN_ANY_ORDER: Statement = Statement {
    name: "StartsInAnyOrder",
    says: "if both controllers send the six events that the sheets order for them, in any order between the two, with any ticks and line changes \
           between them, then the reserve, the priority and the idle timer of each are as ordered.",
    file: "guarantee/specs/Starts.antt",
};

pub const ORDERS_OF_ANY_TWO: Statement = Statement {
    name: "OrdersOfAnyTwo",
    says: "every order of two scripts that keeps each script's own order is tried, and each once.",
    file: "orders/specs/Choices.antt",
};

pub const LONGEST_WAIT_UNHELD: Statement = Statement {
    name: "LongestWaitUnheld",
    says: "in a run from power-up with no reset, in which the holder reserves 1 to R whenever it owns and sends its STOPs within a tick, and the \
           waiting controller keeps asking and finds the bus idle and its own port at rest after each tick, its longest wait is at most R + 1 \
           ticks; so a longer one tells that one of these was not so.",
    file: "longest/specs/Longest.antt",
};
