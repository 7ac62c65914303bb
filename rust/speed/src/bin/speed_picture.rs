//! speed | speed_picture: a picture (SVG) of what `speed` printed: for each mix of traces the best time an
//! event of the proved library and of both steppers, as bars.

use std::io::Read;

const WAYS: [(&str, &str); 3] =
    [("library", "#1f6f3f"), ("tuned", "#8a8a8a"), ("plain", "#c9c9c9")];
const LEFT: f64 = 170.0;
const BAR: f64 = 16.0;
/// Of the longest bar. Right of it there is room for its words.
const LONGEST: f64 = 370.0;

fn main() {
    let mut text = String::new();
    if let Err(why) = std::io::stdin().read_to_string(&mut text) {
        stop(&format!("speed_picture: {why}"));
    }
    let mixes: Vec<(&str, [f64; 3])> = text.lines().filter_map(mix_in).collect();
    if mixes.is_empty() {
        stop("speed_picture: there is no line of `speed` with a mix of traces on standard input");
    }
    println!("{}", drawn(&mixes));
}

fn stop(why: &str) -> ! {
    eprintln!("{why}");
    std::process::exit(2);
}

/// The name of a mix with its share of TICKs, and its three times, out of a line of `speed`.
fn mix_in(line: &str) -> Option<(&str, [f64; 3])> {
    let (name, times) = line.split_once(" ns an event: ")?;
    let time = |way: &str| {
        let after = times.split_once(&format!("{way} "))?.1;
        after.split_whitespace().next()?.parse::<f64>().ok()
    };
    let [library, tuned, plain] = WAYS.map(|(way, _)| time(way));
    Some((name.trim_end_matches([',', ' ']), [library?, tuned?, plain?]))
}

fn drawn(mixes: &[(&str, [f64; 3])]) -> String {
    let height = 30.0 + mixes.len() as f64 * (3.0 * BAR + 24.0);
    let most = mixes.iter().flat_map(|(_, times)| times).fold(f64::MIN_POSITIVE, |a, b| a.max(*b));
    let mut picture = format!(
        "<svg xmlns=\"http://www.w3.org/2000/svg\" width=\"640\" height=\"{height}\" font-family=\"sans-serif\" font-size=\"12\">\n\
         <rect width=\"640\" height=\"{height}\" fill=\"white\"/>\n\
         <text x=\"8\" y=\"18\">Nanoseconds an event, full traces of 4,096 events</text>\n"
    );
    for (number, (name, times)) in mixes.iter().enumerate() {
        let top = 30.0 + number as f64 * (3.0 * BAR + 24.0);
        picture += &format!("<text x=\"8\" y=\"{}\">{name}</text>\n", top + 2.0 * BAR);
        for (place, ((way, colour), time)) in WAYS.iter().zip(times).enumerate() {
            let at = top + place as f64 * BAR + 6.0;
            let width = time / most * LONGEST;
            picture += &format!(
                "<rect x=\"{LEFT}\" y=\"{at}\" width=\"{width:.1}\" height=\"{}\" fill=\"{colour}\"/>\n\
                 <text x=\"{:.1}\" y=\"{}\">{way} {time:.2}</text>\n",
                BAR - 3.0,
                LEFT + width + 6.0,
                at + BAR - 5.0
            );
        }
    }
    picture + "</svg>"
}
