//! The verdict: every reason against a bundle, the worst first.

use super::{bench, orders, sheets, texts, Asked, Bundle, Examined, Orders, Reason};
use crate::sheet::Pair;

/// Examines a bundle whole. A reason does not keep the others from being looked for.
pub fn examine(bundle: Bundle, asked: Asked) -> Examined {
    let pair = Pair::read(&bundle.board.bytes, &bundle.house.bytes);
    let mut reasons = sheets::no_sheets(&bundle);
    reasons.extend(texts::other_texts(&bundle));
    let mut allowed = vec![];
    if let Ok(pair) = &pair {
        reasons.extend(sheets::empty_boxes(&bundle, pair));
        reasons.extend(sheets::not_bounded(&bundle, pair, &asked));
        reasons.extend(sheets::above_most(&bundle, pair, &asked));
        reasons.extend(sheets::not_without_limit(&bundle, pair, &asked));
        allowed = sheets::allowed(pair, &asked);
    }
    let known = pair.as_ref().ok();
    let orders = try_orders(&bundle, known, &mut reasons);
    let benches = bench::all(&bundle, known);
    reasons.extend(benches.reasons);
    // Of the same rank they stay in the order in which they were found.
    reasons.sort_by_key(|reason| reason.rank);
    Examined { bundle, asked, pair, orders, bench: benches.bench, reasons, allowed }
}

/// All orders of the start-up scripts, if they are there and can be tried.
fn try_orders(bundle: &Bundle, pair: Option<&Pair>, reasons: &mut Vec<Reason>) -> Option<Orders> {
    let mut tried = match orders::all_orders(bundle.scripts.as_ref()?) {
        Ok(tried) => tried,
        Err(refused) => {
            reasons.extend(refused);
            return None;
        }
    };
    let found = orders::reasons(bundle, &tried, pair);
    tried.worst = found.iter().min_by_key(|(reason, _)| reason.rank).map_or(0, |&(_, place)| place);
    reasons.extend(found.into_iter().map(|(reason, _)| reason));
    Some(tried)
}
