//! What is drawn on: pixels that are numbers of a palette.

use crate::font;
use crate::png::{png, Colour};

/// Colours beside those of the ramp, which begin at `RAMP`.
pub const PAPER: u8 = 0;
pub const INK: u8 = 1;
pub const CHECK_LIGHT: u8 = 2;
pub const CHECK_DARK: u8 = 3;
pub const RED: u8 = 4;
pub const PALE_RED: u8 = 5;
const PLAIN: [Colour; 6] = [
    [255, 255, 255],
    [48, 48, 48],
    [222, 222, 222],
    [176, 176, 176],
    [205, 30, 30],
    [252, 228, 226],
];

/// The ramp goes through these colours, from dark to light.
const STOPS: [Colour; 6] = [
    [68, 1, 84],
    [64, 67, 135],
    [41, 120, 142],
    [34, 167, 132],
    [121, 209, 81],
    [253, 231, 37],
];
const RAMP: u8 = PLAIN.len() as u8;
const LEVELS: usize = 128;

/// The colour of a part of the range, 0 to 1.
pub fn shade(part: f64) -> u8 {
    RAMP + (part.clamp(0.0, 1.0) * (LEVELS - 1) as f64).round() as u8
}

fn palette() -> Vec<Colour> {
    let ramp = (0..LEVELS).map(|level| {
        let along = level * (STOPS.len() - 1);
        let (stop, rest) = (along / (LEVELS - 1), along % (LEVELS - 1));
        let next = STOPS[(stop + 1).min(STOPS.len() - 1)];
        std::array::from_fn(|n| {
            let (from, to) = (usize::from(STOPS[stop][n]), usize::from(next[n]));
            ((from * (LEVELS - 1 - rest) + to * rest) / (LEVELS - 1)) as u8
        })
    });
    PLAIN.into_iter().chain(ramp).collect()
}

/// A rectangle: its left and top edges, its width and height.
#[derive(Clone, Copy)]
pub struct Area {
    pub x: usize,
    pub y: usize,
    pub width: usize,
    pub height: usize,
}

pub struct Canvas {
    width: usize,
    pixels: Vec<u8>,
}

impl Canvas {
    pub fn new(width: usize, height: usize) -> Canvas {
        Canvas {
            width,
            pixels: vec![PAPER; width * height],
        }
    }

    pub fn png(&self) -> Vec<u8> {
        png(self.width, &self.pixels, &palette())
    }

    /// Each pixel of an area by its place there.
    pub fn paint(&mut self, area: Area, colour: impl Fn(usize, usize) -> u8) {
        for y in 0..area.height {
            let line = &mut self.pixels[(area.y + y) * self.width + area.x..][..area.width];
            for (x, pixel) in line.iter_mut().enumerate() {
                *pixel = colour(x, y);
            }
        }
    }

    /// A text whose letters have dots of so many pixels.
    pub fn write(&mut self, text: &str, x: usize, y: usize, dot: usize) {
        for (n, letter) in text.chars().enumerate() {
            let glyph = font::glyph(letter);
            let area = Area {
                x: x + n * font::STEP * dot,
                y,
                width: font::WIDTH * dot,
                height: font::HEIGHT * dot,
            };
            self.paint(area, |x, y| {
                let is_set = glyph[y / dot] >> (font::WIDTH - 1 - x / dot) & 1 == 1;
                if is_set {
                    INK
                } else {
                    PAPER
                }
            });
        }
    }
}

/// Pixels of a text, without the gap behind its last letter.
pub fn text_width(text: &str, dot: usize) -> usize {
    let steps = text.chars().count() * font::STEP;
    steps.saturating_sub(font::STEP - font::WIDTH) * dot
}

/// Grey checks, so many pixels wide.
pub fn checks(x: usize, y: usize, side: usize) -> u8 {
    match (x / side + y / side) % 2 {
        0 => CHECK_LIGHT,
        _ => CHECK_DARK,
    }
}

/// A cross in a frame, over an area of this size; lines are `2 * half` pixels wide.
pub fn crossed(x: usize, y: usize, area: Area, half: usize) -> u8 {
    let (width, height) = (area.width as i64, area.height as i64);
    // In halves of a pixel, from the middle.
    let (x, y) = (2 * x as i64 + 1 - width, 2 * y as i64 + 1 - height);
    let far = 4 * (half * half) as i64 * (width * width + height * height);
    let is_near = |d: i64| d * d <= far;
    let edge = 2 * half as i64;
    let is_edge = width - x.abs() < edge || height - y.abs() < edge;
    if is_edge || is_near(x * height - y * width) || is_near(x * height + y * width) {
        RED
    } else {
        PALE_RED
    }
}
