//! Times filling, mending, places in millimetres and node tables beside the separate software: the same blocks, tables and process, turn and
//! turn about. Tables are lent as the call before left them, to mending as the block has them, to node tables with the rows that filling
//! wrote; the first call of each is not counted. Prints the best and the middle of the times. `sphere+` is the sphere with a band that takes
//! in a tenth of its points, filled without the cut bytes beside these, which mending clears; the others have band 0. `sphere-` is the sphere
//! with its cut table emptied. `ask` is a call for the node table that is lent none, and so answers how many nodes there are.
use reference::block::Block;
use reference::blockfile::fill_block;
use reference::damage::Filling;
use reference::generate::for_band;
use reference::mend::Mending;
use reference::metric::place_mm;
use reference::nodes::Numbering;
use reference::shapes::{air, emptied, ribs, sphere, tenth_band};
use std::time::Instant;

const TURNS: usize = 25;

struct Times {
    best: f64,
    middle: f64,
}

fn times(mut all: Vec<f64>) -> Times {
    all.sort_by(f64::total_cmp);
    Times {
        best: all[0],
        middle: all[all.len() / 2],
    }
}

/// Takes turns that answer both times, the library's first, and does not count the first turn.
fn turn_about(mut turn: impl FnMut() -> [f64; 2]) -> [Times; 2] {
    turn();
    let turns = [(); TURNS].map(|_| turn());
    [0, 1].map(|which| times(turns.iter().map(|both| both[which]).collect()))
}

fn once(filling: Filling, block: &Block, band: u32, state: &mut [u8], rows: &mut [u32]) -> (f64, u64) {
    let [nx, ny, nz] = block.sizes;
    let began = Instant::now();
    let filled = filling(nx, ny, nz, band, &block.samples, &block.cuts, state, rows);
    let took = began.elapsed().as_secs_f64() * 1000.0;
    assert_eq!(filled.number, 0);
    (took, filled.rows)
}

fn compare_on(name: &str, block: &Block, band: u32) {
    let mut state = vec![0; block.samples.len()];
    let mut rows = vec![0; 8_000_000];
    let mut count = 0;
    let [a, b] = turn_about(|| {
        let (a, n) = once(compare::fill, block, band, &mut state, &mut rows);
        let (b, _) = once(reference::fill::fill, block, band, &mut state, &mut rows);
        count = n;
        [a, b]
    });
    let rate = |t: f64| count as f64 / t;
    println!(
        "{name:7} {count:9} rows | library {:7.2} ms best, {:7.2} middle, {:9.0} rows/ms | separate {:7.2} ms best, {:7.2} middle, {:9.0} rows/ms | ratio {:.2}{}",
        a.best, a.middle, rate(a.best), b.best, b.middle, rate(b.best), a.best / b.best, said(band)
    );
}

/// What a line says of its band.
fn said(band: u32) -> String {
    if band > 0 { format!(" | band {band}") } else { String::new() }
}

/// Mending of a block's cut table. Its bytes are put back before each call, outside the time. Counted are those that change.
fn compare_mending_of(name: &str, block: &Block, band: u32) {
    let (mut cuts, [nx, ny, nz]) = (block.cuts.clone(), block.sizes);
    let mut timed = |mending: Mending| {
        cuts.copy_from_slice(&block.cuts);
        let began = Instant::now();
        let mended = mending(nx, ny, nz, band, &block.samples, &mut cuts);
        let took = began.elapsed().as_secs_f64() * 1000.0;
        assert_eq!(mended.number, 0);
        (took, mended)
    };
    let mut count = 0;
    let [a, b] = turn_about(|| {
        let ((a, ours), (b, theirs)) = (timed(compare::mend), timed(reference::mend::mend));
        assert_eq!(ours, theirs);
        count = ours.filled + ours.cleared;
        [a, b]
    });
    println!(
        "{name:7} {count:9} mend | library {:7.2} ms best, {:7.2} middle | separate {:7.2} ms best, {:7.2} middle | ratio {:.2}{}",
        a.best, a.middle, b.best, b.middle, a.best / b.best, said(band)
    );
}

/// The place in millimetres of each id that the rows of a block name, for cubes of 2 mm. The sum of all answers is what is compared.
fn compare_places_of(name: &str, block: &Block) {
    let (tables, [nx, ny, nz]) = (fill_block(block, 0), block.sizes);
    let (mut ids, unit) = (tables.rows, 2.0 / 512.0);
    ids.sort_unstable();
    ids.dedup();
    let timed = |place: &dyn Fn(u32) -> f64| {
        let began = Instant::now();
        let sum: f64 = ids.iter().map(|&id| place(id)).sum();
        (began.elapsed().as_secs_f64() * 1000.0, sum)
    };
    let [a, b] = turn_about(|| {
        let (a, our_sum) = timed(&|id| {
            let p = yakuemi::raw::place_mm(block.sizes, &block.cuts, &tables.state, id, unit).point;
            p.x + p.y + p.z
        });
        let (b, their_sum) = timed(&|id| {
            let p = place_mm(nx, ny, nz, &block.cuts, &tables.state, id, unit).point;
            p.x + p.y + p.z
        });
        assert_eq!(our_sum, their_sum);
        [a, b]
    });
    println!(
        "{name:7} {:9} ids  | library {:7.2} ms best, {:7.2} middle | separate {:7.2} ms best, {:7.2} middle | ratio {:.2}",
        ids.len(), a.best, a.middle, b.best, b.middle, a.best / b.best
    );
}

/// The node table of a block: exact or, to ask how many nodes there are, empty. The rows are put back before each call, outside the time.
fn compare_nodes_of(name: &str, block: &Block) {
    let (tables, [nx, ny, nz]) = (fill_block(block, 0), block.sizes);
    let mut rows = tables.rows.clone();
    let mut timed = |numbering: Numbering, nodes: &mut [u32]| {
        rows.copy_from_slice(&tables.rows);
        let began = Instant::now();
        let numbered = numbering(nx, ny, nz, &block.cuts, &tables.state, &mut rows, nodes);
        (began.elapsed().as_secs_f64() * 1000.0, numbered)
    };
    let (_, asked) = timed(compare::nodes, &mut []);
    let mut exact = vec![0; 4 * asked.nodes as usize];
    for (what, number, nodes) in [("node", 0, &mut exact[..]), ("ask", 10, &mut [])] {
        let [a, b] = turn_about(|| {
            let ((a, ours), (b, theirs)) = (timed(compare::nodes, nodes), timed(reference::nodes::nodes, nodes));
            assert_eq!((ours.number, ours), (number, theirs));
            [a, b]
        });
        println!(
            "{name:7} {:9} {what:4} | library {:7.2} ms best, {:7.2} middle | separate {:7.2} ms best, {:7.2} middle | ratio {:.2}",
            asked.nodes, a.best, a.middle, b.best, b.middle, a.best / b.best
        );
    }
}

fn main() {
    let sphere = sphere();
    compare_on("sphere", &sphere, 0);
    compare_on("air", &air(), 0);
    compare_on("ribs", &ribs(), 0);
    let band = tenth_band(&sphere);
    compare_on("sphere+", &for_band(sphere.clone(), band), band);
    compare_mending_of("sphere-", &emptied(sphere.clone()), 0);
    compare_mending_of("sphere", &sphere, 0);
    compare_mending_of("sphere+", &sphere, band);
    compare_mending_of("air", &air(), 0);
    compare_places_of("sphere", &sphere);
    compare_nodes_of("sphere", &sphere);
}
