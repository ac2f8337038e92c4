//! Lines with both ends far outside a small window: what they cost beyond their visible pixels.
use crate::byhand;
use crate::c::{self, Ends, Window};
use crate::clock::{Clock, Contestant, REPEATS};
use crate::lines::{Kind, KINDS, LINES};
use crate::table::markdown;

/// The windows, around the pixel (0, 0). With two of them a line's cost comes apart into that of a pixel and the rest.
pub const SMALL: Window = around(64);
pub const LARGE: Window = around(256);

const fn around(side: u32) -> Window {
    let first = -(side as i32 / 2);
    Window {
        left: first,
        top: first,
        width: side,
        height: side,
    }
}

/// The single step of a kind's lines in both windows, with the visible pixels, and by hand in the large one.
struct Group {
    small: Contestant,
    large: Contestant,
    by_hand: Contestant,
    small_pixels: u64,
    large_pixels: u64,
}

pub struct Outside([Group; KINDS.len()]);

/// A line by single steps: how many pixels it has in the window.
pub fn single(ends: Ends, window: Window, raster: &mut [u8]) -> u64 {
    c::draw_single(ends, window, raster).count
}

/// Draws lines in the window, into the raster's first bytes.
pub fn draw_all(
    lines: &[Ends],
    window: Window,
    raster: &mut [u8],
    draw: impl Fn(Ends, Window, &mut [u8]) -> u64,
) -> u64 {
    let raster = &mut raster[..window.raster_bytes()];
    lines.iter().map(|&ends| draw(ends, window, raster)).sum()
}

impl Group {
    fn enter<'a>(clock: &mut Clock<'a>, lines: &'a [Ends], raster: &mut [u8]) -> Group {
        let mut add =
            |window: Window| clock.add_repeated(move |buffers| draw_all(lines, window, &mut buffers.raster, single));
        Group {
            small: add(SMALL),
            large: add(LARGE),
            by_hand: clock.add(|buffers| draw_all(lines, LARGE, &mut buffers.raster, byhand::draw::draw_tested)),
            small_pixels: draw_all(lines, SMALL, raster, single),
            large_pixels: draw_all(lines, LARGE, raster, single),
        }
    }

    fn ns_a_line(&self, clock: &Clock, contestant: Contestant) -> f64 {
        clock.ns(contestant) / (REPEATS * LINES) as f64
    }

    /// What a line costs where it has no pixel, on the straight line through its costs in both windows.
    fn beyond(&self, clock: &Clock) -> f64 {
        let small = self.ns_a_line(clock, self.small);
        let large = self.ns_a_line(clock, self.large);
        let (few, many) = (self.small_pixels as f64, self.large_pixels as f64);
        small - (large - small) * few / (many - few)
    }
}

impl Outside {
    pub fn enter<'a>(clock: &mut Clock<'a>, lines: &'a [Vec<Ends>; KINDS.len()], raster: &mut [u8]) -> Outside {
        Outside(lines.each_ref().map(|lines| Group::enter(clock, lines, raster)))
    }

    pub fn table(&self, clock: &Clock) -> String {
        let heads = KINDS.map(|kind| kind.name().to_string());
        let row = |name: &str, figure: &dyn Fn(&Group) -> f64| {
            let cell = |kind: Kind| format!("{:.1}", figure(&self.0[kind as usize]));
            (name.to_string(), KINDS.map(cell))
        };
        let lines = [
            row("visible pixels a line", &|group| {
                group.large_pixels as f64 / LINES as f64
            }),
            row("single step", &|group| group.ns_a_line(clock, group.large)),
            row("single step, beyond the visible pixels", &|group| group.beyond(clock)),
            row("by hand, a window test at each pixel", &|group| {
                clock.ns(group.by_hand) / LINES as f64
            }),
        ];
        markdown("ns a line", &heads, &lines)
    }
}
