//! Draws faces: seen from afar, the nearest one at each pixel, shaded by its normal, with its edges drawn.

use crate::png::Image;
use crate::view::{Face, Vector, EYE};

/// Pixels of the picture's width.
const WIDTH: usize = 1000;
/// Each pixel is the mean of so many by so many.
const FINER: usize = 3;
/// The free margin, in pixels.
const MARGIN: f64 = 14.0;
/// Half the width of an edge, in finer pixels.
const EDGE: f64 = 1.2;

/// From the mesh to the light.
const LIGHT: Vector = [-0.80, -0.25, 0.75];

const PAPER: Vector = [255.0, 255.0, 255.0];
const SKIN: Vector = [92.0, 128.0, 168.0];
const INSIDE: Vector = [240.0, 178.0, 74.0];
const INK: Vector = [22.0, 30.0, 44.0];

fn dot(a: Vector, b: Vector) -> f64 {
    a[0] * b[0] + a[1] * b[1] + a[2] * b[2]
}

fn cross(a: Vector, b: Vector) -> Vector {
    [a[1] * b[2] - a[2] * b[1], a[2] * b[0] - a[0] * b[2], a[0] * b[1] - a[1] * b[0]]
}

fn less(a: Vector, b: Vector) -> Vector {
    [a[0] - b[0], a[1] - b[1], a[2] - b[2]]
}

fn unit(a: Vector) -> Vector {
    let length = dot(a, a).sqrt();
    a.map(|x| x / length)
}

fn mixed(a: Vector, b: Vector, share: f64) -> Vector {
    [0, 1, 2].map(|n| a[n] + share * (b[n] - a[n]))
}

/// Right, down and towards the eye, as seen.
fn seen(at: Vector) -> Vector {
    let towards = unit(EYE);
    let right = unit(cross([0.0, 0.0, 1.0], towards));
    [dot(at, right), -dot(at, cross(towards, right)), dot(at, towards)]
}

/// A face's colour: lighter where it turns to the light.
fn shade(face: &Face) -> Vector {
    let [a, b, c] = face.corners;
    let normal = unit(cross(less(b, a), less(c, a)));
    let light = dot(normal, unit(LIGHT));
    let base = if face.skin { SKIN } else { INSIDE };
    let aside = mixed(base, INK, 0.35);
    if light > 0.0 {
        mixed(aside, mixed(base, PAPER, 0.5), light)
    } else {
        mixed(aside, INK, -0.5 * light)
    }
}

/// The finer pixels: the nearest face's depth and colour so far.
struct Canvas {
    width: usize,
    height: usize,
    depth: Vec<f32>,
    colour: Vec<[u8; 3]>,
}

impl Canvas {
    /// Draws a triangle of right, down and depth, in finer pixels.
    fn draw(&mut self, corners: [Vector; 3], colour: Vector) {
        let [a, b, c] = corners;
        let side = |p: Vector, q: Vector, x: f64, y: f64| (q[0] - p[0]) * (y - p[1]) - (q[1] - p[1]) * (x - p[0]);
        let area = side(a, b, c[0], c[1]);
        if area == 0.0 {
            return;
        }
        let length = |p: Vector, q: Vector| (q[0] - p[0]).hypot(q[1] - p[1]);
        let heights = [length(b, c), length(c, a), length(a, b)].map(|edge| area.abs() / edge);
        let span = |axis: usize, most: usize| {
            let along = corners.map(|corner| corner[axis]);
            let low = along.iter().copied().fold(f64::MAX, f64::min).max(0.0);
            let high = along.iter().copied().fold(f64::MIN, f64::max).min(most as f64 - 1.0);
            low as usize..high as usize + 1
        };
        for y in span(1, self.height) {
            for x in span(0, self.width) {
                let (px, py) = (x as f64 + 0.5, y as f64 + 0.5);
                let shares = [side(b, c, px, py), side(c, a, px, py), side(a, b, px, py)].map(|s| s / area);
                if shares.iter().any(|&share| share < 0.0) {
                    continue;
                }
                let depth = shares[0] * a[2] + shares[1] * b[2] + shares[2] * c[2];
                let edge = (0..3).any(|n| shares[n] * heights[n] < EDGE);
                let ink = if edge { mixed(colour, INK, 0.72) } else { colour };
                self.put(y * self.width + x, depth as f32, ink);
            }
        }
    }

    fn put(&mut self, at: usize, depth: f32, colour: Vector) {
        if depth > self.depth[at] {
            self.depth[at] = depth;
            self.colour[at] = colour.map(|part| part.clamp(0.0, 255.0) as u8);
        }
    }

    /// The mean of the finer pixels of one pixel.
    fn mean(&self, x: usize, y: usize) -> Vector {
        let mut sum = [0.0; 3];
        for line in y * FINER..(y + 1) * FINER {
            for column in x * FINER..(x + 1) * FINER {
                let colour = self.colour[line * self.width + column];
                (0..3).for_each(|n| sum[n] += f64::from(colour[n]));
            }
        }
        sum.map(|part| part / (FINER * FINER) as f64)
    }
}

/// The palette: paper, and both bases from ink to paper.
fn palette() -> Vec<[u8; 3]> {
    let mut colours = vec![PAPER];
    for base in [SKIN, INSIDE] {
        colours.extend((0..28).map(|n| mixed(INK, base, f64::from(n) / 28.0)));
        colours.extend((0..28).map(|n| mixed(base, PAPER, f64::from(n) / 28.0)));
    }
    colours.into_iter().map(|colour| colour.map(|part| part.round() as u8)).collect()
}

fn nearest(colours: &[[u8; 3]], colour: Vector) -> u8 {
    let distance = |c: &[u8; 3]| (0..3).map(|n| (f64::from(c[n]) - colour[n]).powi(2)).sum::<f64>();
    let best = (0..colours.len()).min_by(|&a, &b| distance(&colours[a]).total_cmp(&distance(&colours[b])));
    best.unwrap_or(0) as u8
}

/// The picture of some faces, as wide as it is set and as high as they need.
pub fn draw(faces: &[Face]) -> Image {
    let corners = || faces.iter().flat_map(|face| face.corners.map(seen));
    let low = [0, 1].map(|axis| corners().map(|at| at[axis]).fold(f64::MAX, f64::min));
    let high = [0, 1].map(|axis| corners().map(|at| at[axis]).fold(f64::MIN, f64::max));
    let scale = (WIDTH as f64 - 2.0 * MARGIN) / (high[0] - low[0]);
    let rows = ((high[1] - low[1]) * scale + 2.0 * MARGIN).ceil() as usize;
    let (width, height) = (WIDTH * FINER, rows * FINER);
    let paper = PAPER.map(|part| part as u8);
    let mut canvas = Canvas { width, height, depth: vec![f32::MIN; width * height], colour: vec![paper; width * height] };
    let finer = |shift: f64| (shift * scale + MARGIN) * FINER as f64;
    for face in faces {
        let corners = face.corners.map(seen).map(|[x, y, depth]| [finer(x - low[0]), finer(y - low[1]), depth]);
        canvas.draw(corners, shade(face));
    }
    let colours = palette();
    let pixels = (0..rows).flat_map(|y| (0..WIDTH).map(move |x| (x, y)));
    let pixels = pixels.map(|(x, y)| nearest(&colours, canvas.mean(x, y))).collect();
    Image { width: WIDTH, pixels, colours }
}
