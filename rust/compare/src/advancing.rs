//! Advances over quiet time on both sides (document 02, #113).

use gunwaleish::boundary;
use model::advance::MOST_TICKS;
use model::advances::{any_ticks, reached, ENDS};
use model::image::IMAGE_LENGTH;
use model::images::any_image;
use model::rng::Rng;
use model::{image_advance, image_of, Advanced};

use crate::check::pattern;
use crate::figures::{differ, Difference, Figures};
use crate::imaging::{good_images, images_differ};

/// "This is never above six from any state reached from power-up", and what is proved is three.
const MOST_CHANGING: u32 = 3;

/// Advances any buffer. Gives what the model said.
pub fn check_advance(ticks: u32, image: &[u8]) -> Result<Advanced, Difference> {
    let (mut expected, mut buffer) = (image.to_vec(), image.to_vec());
    let advanced = image_advance(ticks, &mut expected);
    let packed = boundary::image_advance(ticks, &mut buffer);
    if packed != u32::from(advanced.number) + 256 * advanced.changing {
        return differ(format!(
            "advance by {ticks} ticks: model number {}, {} changing, library number {}, {} changing",
            advanced.number,
            advanced.changing,
            packed % 256,
            packed / 256
        ));
    }
    match buffer == expected {
        true => Ok(advanced),
        false => {
            let how = images_differ(&expected, &buffer);
            differ(format!("advance by {ticks} ticks leaves another image: {how}"))
        }
    }
}

/// Random advances: of images out of runs, of images in range that few runs reach, and of buffers
/// that are no image.
pub fn advance_calls(rng: &mut Rng, figures: &mut Figures) {
    for _ in 0..6 {
        let image = image_of(&reached(rng));
        figures.advance_reached(any_ticks(rng), &image);
    }
    for _ in 0..6 {
        let image = any_image(rng);
        figures.advance(any_ticks(rng), &image);
    }
    let mut outside = any_image(rng);
    outside[15] = rng.between(36, 255) as u8;
    let length = rng.pick(&[0, 1, 37, 39, 76]);
    for buffer in [&outside[..], &pattern(IMAGE_LENGTH), &pattern(length)] {
        figures.advance(any_ticks(rng), buffer);
        figures.advance(rng.pick(&[0, MOST_TICKS + 1]), buffer);
    }
}

/// Images out of runs, advanced by all numbers of ticks about which something ends, and to the most.
pub fn advances_about_ends(figures: &mut Figures) {
    for image in good_images() {
        for ticks in ENDS.into_iter().chain([700, 2000, MOST_TICKS, MOST_TICKS + 1, u32::MAX]) {
            figures.advance_reached(ticks, &image);
        }
    }
    let rng = &mut Rng::new(113);
    for _ in 0..40 {
        let image = image_of(&reached(rng));
        (0..=700).step_by(3).for_each(|ticks| figures.advance_reached(ticks, &image));
        figures.advance_reached(MOST_TICKS, &image);
    }
}

impl Figures {
    /// Advances a buffer on both sides and counts it. Gives the ticks that changed something.
    pub fn advance(&mut self, ticks: u32, image: &[u8]) -> u32 {
        match check_advance(ticks, image) {
            Ok(advanced) => {
                self.answered("image advance", advanced.number);
                self.sights.see_advance(ticks, image);
                advanced.changing
            }
            Err(difference) => {
                self.tell("image", image, &difference);
                0
            }
        }
    }

    /// The same with an image that a run has reached.
    pub fn advance_reached(&mut self, ticks: u32, image: &[u8]) {
        let changing = self.advance(ticks, image);
        self.sights.see_changing(changing);
        self.most_changing = self.most_changing.max(changing);
        if changing > MOST_CHANGING {
            self.tell("image", image, format!("advance by {ticks}: {changing} changing ticks"));
        }
    }
}
