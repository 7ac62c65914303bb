//! The paper that pictures are drawn on: A4 in landscape, as many pages below each other as it takes; or the
//! width of a page of HTML.

use crate::svg::{Drawing, Joined};
use crate::version::TOOL;
use crate::wrap::wrapped;

/// A rule a line.
const STYLE: &str = "\
text { font: 11px 'DejaVu Sans', Verdana, Arial, sans-serif; fill: #222 }
.title { font-size: 16px; font-weight: bold }
.verdict { font-size: 12px; font-weight: bold; fill: #b00020 }
.lane { font-weight: bold }
.small { font-size: 10px; fill: #555 }
.middle { font-size: 10px; fill: #555; text-anchor: middle }
.event { font-size: 10px; fill: #333 }
.bad { font-size: 10px; fill: #b00020; font-weight: bold }
.onbar { fill: #fff; font-weight: bold }
.onlight { fill: #3f2a00; font-weight: bold }
.paper { fill: #fff }
.ground { fill: #f6f7f9 }
.apart { fill: #e3e7ee }
.c0 { fill: #1f5fa8 }
.c1 { fill: #0f766e }
.open0 { fill: #9dbfe4 }
.open1 { fill: #93d3c9 }
.waits { fill: #fbc274; stroke: #b45309; stroke-dasharray: 4 3 }
.nobody { fill: #cbd5e1 }
.int { fill: #7c3aed }
.low { fill: #f3d3d7 }
.hung { fill: #b00020 }
.initialising { fill: #64748b }
.wave { fill: none; stroke: #222; stroke-width: 1.4 }
.paper-line { stroke: #fff; stroke-width: 3 }
.axis { fill: none; stroke: #888 }
.cross { fill: none; stroke: #b00020; stroke-width: 2 }
.dropped { fill: #b45309 }
.end { stroke: #222; stroke-width: 1.6 }
.fold { fill: none; stroke: #888; stroke-dasharray: 2 3 }
";

/// The class of a picture in a page of HTML.
const IN_PAGE: &str = "run";

/// The style of all pictures in a page of HTML. It bears on nothing else there.
pub fn style_in_page() -> String {
    STYLE.lines().map(|rule| format!("svg.{IN_PAGE} {rule}\n")).collect()
}

const WIDTH: f64 = 1040.0;
const WIDTH_IN_PAGE: f64 = 740.0;
/// The height of a page of that width, and both in millimetres, with a margin of 10.
const PAGE: f64 = 713.0;
const PAGE_MM: [f64; 2] = [277.0, 190.0];
const LEFT: f64 = 14.0;
/// The width of a letter of the lines of text, and of the bold ones.
const LETTER: f64 = 6.4;
const BOLD_LETTER: f64 = 7.6;

/// What a sign of the picture means.
pub enum Look {
    /// Boxes of these classes.
    Boxes(&'static [&'static str]),
    Cross,
    Dropped,
    /// The words of an event in red.
    Red,
    End,
    Fold,
}

/// A picture that grows downwards.
pub struct Paper {
    pub drawing: Drawing,
    width: f64,
    /// Down to here it is drawn.
    pub y: f64,
    /// It may have several pages, and nothing lies across two.
    pub paged: bool,
}

impl Paper {
    pub fn new(paged: bool) -> Paper {
        Paper { drawing: Drawing::default(), width: WIDTH, y: 0.0, paged }
    }

    /// For a page of HTML.
    pub fn in_page() -> Paper {
        Paper { drawing: Drawing::default(), width: WIDTH_IN_PAGE, y: 0.0, paged: false }
    }

    /// Room for a block of this height, and its top.
    pub fn block(&mut self, height: f64) -> f64 {
        let page = (self.y / PAGE).floor();
        if self.paged && height <= PAGE && self.y + height > (page + 1.0) * PAGE {
            self.y = (page + 1.0) * PAGE;
        }
        let top = self.y;
        self.y += height;
        top
    }

    pub fn title(&mut self, words: &str) {
        let top = self.block(34.0);
        self.drawing.text("title", [LEFT, top + 24.0], words);
    }

    /// Lines of text, no longer than the paper is wide.
    pub fn lines(&mut self, class: &str, text: &str) {
        let letter = if class == "verdict" { BOLD_LETTER } else { LETTER };
        for line in wrapped(text, ((self.width - 2.0 * LEFT) / letter) as usize) {
            let top = self.block(16.0);
            self.drawing.text(class, [LEFT, top + 12.0], &line);
        }
    }

    /// What the signs mean, as many on a line as fit.
    pub fn legend(&mut self, looks: &[(Look, &str)]) {
        let mut x = LEFT;
        let mut top = self.block(18.0);
        for (look, words) in looks {
            let boxes = if let Look::Boxes(classes) = look { classes.len() } else { 1 };
            let width = 16.0 * boxes as f64 + 6.1 * words.len() as f64 + 16.0;
            if x + width > self.width {
                (x, top) = (LEFT, self.block(18.0));
            }
            self.sign(look, x, top + 4.0);
            self.drawing.text("small", [x + 16.0 * boxes as f64 + 2.0, top + 13.0], words);
            x += width;
        }
    }

    fn sign(&mut self, look: &Look, x: f64, y: f64) {
        let drawing = &mut self.drawing;
        match look {
            Look::Boxes(classes) => {
                for (place, class) in classes.iter().enumerate() {
                    drawing.rect(class, [x + 16.0 * place as f64, y, 14.0, 10.0], "");
                }
            }
            Look::Cross => {
                let cross = &mut Joined::default();
                drawing.joined("cross", cross.cross([x + 7.0, y + 5.0], 3.5), "");
            }
            Look::Dropped => {
                let triangle = &mut Joined::default();
                drawing.joined("dropped", triangle.triangle([x + 7.0, y + 5.0], 5.0), "");
            }
            Look::Red => drawing.text("bad", [x + 1.0, y + 9.0], "ab"),
            Look::End => drawing.line("end", [x + 7.0, y - 1.0], [x + 7.0, y + 11.0]),
            Look::Fold => {
                let upright = |x: f64| [[x, y - 1.0], [x, y + 11.0]];
                let lines = &mut Joined::default();
                drawing.joined("fold", lines.line(&upright(x + 3.0)).line(&upright(x + 11.0)), "");
            }
        }
    }

    /// What it was made of, and by what.
    pub fn foot(&mut self, files: &[(&str, usize)]) {
        let file = |&(name, size): &(&str, usize)| format!("{name}, {size} bytes");
        let files: Vec<String> = files.iter().map(file).collect();
        self.lines("small", &format!("{}; {TOOL}", files.join("; ")));
        self.y += 8.0;
    }

    /// The whole file. What is one page is made as large as an A4 page has room for.
    pub fn finish(self) -> String {
        let [wide, high] = PAGE_MM;
        let scale = match self.paged {
            true => wide / WIDTH,
            false => (wide / WIDTH).min(high / self.y),
        };
        self.drawing.finish([WIDTH, self.y], scale, &format!("<style>\n{STYLE}</style>\n"))
    }

    /// The element for a page of HTML, which is as wide there as the page lets it be. `label` tells the picture
    /// to those who do not see it.
    pub fn finish_in_page(self, label: &str) -> String {
        self.drawing.in_page(self.width, self.y + 4.0, IN_PAGE, label)
    }
}

/// The last part of a path.
pub fn file_name(name: &str) -> &str {
    name.rsplit(std::path::is_separator).next().unwrap_or(name)
}
