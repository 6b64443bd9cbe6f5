//! The fast filling exchanges the last two corners of a row by a fixed sign,
//! document 01 by the sign of the six-volume with moved points. Here is why
//! that is the same, for all blocks and not only for random ones.
//!
//! A row's corners are corners of its lattice tetrahedron or live cuts, and
//! both ends of a live cut are unmoved. So the row lies in the moved
//! tetrahedron as it would in the unmoved one, and its six-volume is that of
//! the whole tetrahedron times a product of shares that depends on no move.
//! It remains to show that a tetrahedron with a plus corner keeps its sign.
//! The plus corner itself is unmoved. The six-volume is linear in the place
//! of each other corner, which is somewhere from 0 to the limit along one of
//! fourteen edges; so its least value is taken where each corner either stays
//! or moves by the whole limit, and these cases are few enough to try all.

use reference::block::Block;
use reference::blockfile::fill_block;
use reference::cut::{limit, place_of_cut, place_of_point, six_volume, Place};
use reference::generate::{block, for_band, wide_band, CUTTINGS, MIXES};
use reference::lattice::{Edge, Lattice, DIRECTIONS};
use reference::plain::{id_of, move_points, place_of, rows_of, tetrahedra, Corner};
use reference::random::Random;
use std::collections::HashSet;

/// Where a corner can be: its own place, or the limit along its edges.
fn extreme_places(lattice: &Lattice, point: usize) -> Vec<Place> {
    let own = place_of_point(lattice, point);
    let mut places = vec![own];
    for (direction, step) in DIRECTIONS.iter().enumerate() {
        let t = i64::from(limit(direction));
        for way in [t, -t] {
            places.push([0, 1, 2].map(|a| own[a] + way * i64::from(step[a])));
        }
    }
    places
}

#[test]
fn no_tetrahedron_with_an_unmoved_corner_turns_inside_out() {
    let lattice = Lattice::new(2, 2, 2).unwrap();
    let mut least = i64::MAX;
    for mut corners in tetrahedra(&lattice) {
        corners.sort();
        let at_rest = six_volume(corners.map(|p| place_of_point(&lattice, p)));
        for unmoved in 0..4 {
            let mut choices = corners.map(|point| extreme_places(&lattice, point));
            choices[unmoved].truncate(1);
            let [first, second, third, fourth] = choices;
            for &a in &first {
                for &b in &second {
                    for &c in &third {
                        for &d in &fourth {
                            least = least.min(at_rest.signum() * six_volume([a, b, c, d]));
                        }
                    }
                }
            }
        }
    }
    assert!(least > 0, "least six-volume {least}");
}

/// The same on random blocks, with every pattern at each of the twelve kinds
/// of tetrahedra: the filling's swap is that of the signed six-volume.
#[test]
fn swaps_follow_the_six_volume_in_all_patterns() {
    let mut random = Random::new(21);
    let mut seen = HashSet::new();
    for mix in MIXES {
        for cutting in CUTTINGS {
            for _ in 0..12 {
                let block = block(&mut random, [6, 6, 6], mix, cutting);
                check_swaps(&block, 0, &mut seen);
                let band = wide_band(&mut random, &block);
                check_swaps(&for_band(block, band), band, &mut seen);
            }
        }
    }
    assert_eq!(seen.len(), 12 * 81);
}

/// Compares each row with its signed six-volume and notes the patterns seen.
fn check_swaps(block: &Block, band: u32, seen: &mut HashSet<(usize, usize, [i16; 4])>) {
    let lattice = block.lattice().unwrap();
    let tables = fill_block(block, band);
    assert_eq!(tables.filled.number, 0);
    let moved = move_points(&lattice, band, &block.samples, &block.cuts);
    let mut rows = tables.rows.chunks_exact(4);
    let list = tetrahedra(&lattice);
    for (n, mut corners) in list.iter().copied().enumerate() {
        corners.sort();
        let labels = corners.map(|point| moved.labels[point]);
        seen.insert((n / (list.len() / 3), n % 4, labels));
        for row in rows_of(&lattice, &moved.labels, corners) {
            let places =
                row.map(|corner: Corner| place_of(&lattice, &block.cuts, &moved.codes, corner));
            let volume = six_volume(places);
            assert_ne!(volume, 0);
            let [a, b, c, d] = row.map(|corner| id_of(&lattice, corner));
            let expected = if volume < 0 {
                [a, b, d, c]
            } else {
                [a, b, c, d]
            };
            assert_eq!(rows.next().unwrap(), expected);
        }
    }
    assert!(rows.next().is_none());
}

/// The place of a moved point is where the extreme places say it can be.
#[test]
fn extreme_places_lie_on_the_edges() {
    let lattice = Lattice::new(4, 4, 4).unwrap();
    let point = lattice.number([4, 4, 4]).unwrap();
    let places = extreme_places(&lattice, point);
    for direction in 0..7 {
        let t = limit(direction) as u8;
        let start = point;
        assert!(places.contains(&place_of_cut(&lattice, Edge { start, direction }, t)));
        let start = lattice.start(point, direction).unwrap();
        let t = (256 - limit(direction)) as u8;
        assert!(places.contains(&place_of_cut(&lattice, Edge { start, direction }, t)));
    }
}
