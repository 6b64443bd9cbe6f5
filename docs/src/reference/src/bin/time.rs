//! Times the fast filling, the fast mending and the fast node table on the
//! shapes of [`reference::shapes`]. To be built with `--release`. An argument
//! sets the count of runs per shape.

use reference::block::Block;
use reference::damage::NodesCall;
use reference::fill::{fill, Filled};
use reference::generate::for_band;
use reference::mend::mend;
use reference::nodes::nodes;
use reference::shapes;
use std::time::Instant;

fn main() {
    let runs = std::env::args().nth(1).and_then(|n| n.parse().ok());
    let runs: usize = runs.unwrap_or(21).max(1);
    let [sphere, air, ribs] = [shapes::sphere(), shapes::air(), shapes::ribs()];
    for (name, block) in [("sphere", &sphere), ("air", &air), ("ribs", &ribs)] {
        report(name, block, 0, runs);
    }
    let band = shapes::tenth_band(&sphere);
    let banded = for_band(sphere.clone(), band);
    report(&format!("sphere, band {band}"), &banded, band, runs);
    let emptied = |block: &Block| shapes::emptied(block.clone());
    for (name, block) in [
        ("sphere with an empty table", &emptied(&sphere)),
        ("sphere with a good table", &sphere),
        ("air", &air),
        ("ribs with an empty table", &emptied(&ribs)),
    ] {
        report_mending(name, block, 0, runs);
    }
    for (name, block) in [("of band 0", &sphere), ("of this band", &banded)] {
        let name = format!("sphere with the good table {name}, band {band}");
        report_mending(&name, block, band, runs);
    }
    report_nodes("sphere", &NodesCall::of_sphere(), runs);
}

/// Prints the best and the middle time of some runs over warm tables.
fn report(name: &str, block: &Block, band: u32, runs: usize) {
    let [nx, ny, nz] = block.sizes;
    let mut state = vec![0; block.samples.len()];
    let run = |state: &mut [u8], rows: &mut [u32]| -> (f64, Filled) {
        let begin = Instant::now();
        let (samples, cuts) = (&block.samples, &block.cuts);
        let filled = fill(nx, ny, nz, band, samples, cuts, state, rows);
        (begin.elapsed().as_secs_f64() * 1e3, filled)
    };
    let (_, needed) = run(&mut state, &mut []);
    let mut rows = vec![1; 4 * needed.rows as usize];
    let times = (0..runs).map(|_| run(&mut state, &mut rows).0);
    let times = best_and_middle(times.collect());
    let (_, filled) = run(&mut state, &mut rows);
    assert_eq!(filled.number, 0);
    println!("{name}: {} rows, {} moved", filled.rows, filled.moved);
    for (word, time) in times {
        let rate = filled.rows as f64 / time;
        println!("  {word} {time:.2} ms, {rate:.0} rows per ms");
    }
}

/// The same for mending; the table is made anew for each run, beside its time.
fn report_mending(name: &str, block: &Block, band: u32, runs: usize) {
    let [nx, ny, nz] = block.sizes;
    let mut cuts = block.cuts.clone();
    let mut run = || {
        cuts.copy_from_slice(&block.cuts);
        let begin = Instant::now();
        let mended = mend(nx, ny, nz, band, &block.samples, &mut cuts);
        (begin.elapsed().as_secs_f64() * 1e3, mended)
    };
    let times = best_and_middle((0..runs).map(|_| run().0).collect());
    let (_, mended) = run();
    assert_eq!(mended.number, 0);
    println!(
        "mending, {name}: {} filled in, {} cleared",
        mended.filled, mended.cleared
    );
    for (word, time) in times {
        println!("  {word} {time:.3} ms");
    }
}

/// The same for the node table; the rows are made anew for each run, beside its
/// time.
fn report_nodes(name: &str, call: &NodesCall, runs: usize) {
    let [nx, ny, nz] = call.sizes;
    let (mut rows, mut table) = (call.rows.clone(), call.nodes.clone());
    let mut run = || {
        rows.copy_from_slice(&call.rows);
        let begin = Instant::now();
        let numbered = nodes(nx, ny, nz, &call.cuts, &call.state, &mut rows, &mut table);
        (begin.elapsed().as_secs_f64() * 1e3, numbered)
    };
    let times = best_and_middle((0..runs).map(|_| run().0).collect());
    let (_, numbered) = run();
    assert_eq!(numbered.number, 0);
    let [(_, best), (_, middle)] = times;
    let count = call.rows.len() / 4;
    println!(
        "nodes, {name}: {count} rows, {} nodes, best {best:.2} ms, middle {middle:.2} ms",
        numbered.nodes
    );
}

fn best_and_middle(mut times: Vec<f64>) -> [(&'static str, f64); 2] {
    times.sort_by(f64::total_cmp);
    [("best", times[0]), ("middle", times[times.len() / 2])]
}
