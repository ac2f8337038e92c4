//! Frames of random files in random windows over random rasters: in all rows, in a band, and once more where the band is drawn
//! already.
use super::Chosen;
use crate::comparison::Comparison;
use crate::make::{raster, window_near};
use crate::parts::lines::band;
use crate::random::Random;
use paper::draw::Band;

const FRAMES: u32 = 250_000;

pub fn run(comparison: &mut Comparison, random: &mut Random) {
    for _ in 0..FRAMES {
        let chosen = Chosen::new(random);
        let window = window_near(random, &chosen.near);
        let start = raster(random, window);
        let rows = window.height;
        let all = Band { first: 0, rows };
        comparison.draw_frame(chosen.asked(), window, all, &start);
        let band = band(random, window);
        comparison.draw_frame(chosen.asked(), window, band, &start);
        comparison.draw_frame_again(chosen.asked(), window, band);
    }
}
