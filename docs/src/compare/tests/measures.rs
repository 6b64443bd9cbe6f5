//! Measures, over every size up to 70 along one axis and a grid of others.
use reference::place::measures;
use yakuemi::raw;

fn same(nx: u32, ny: u32, nz: u32) {
    let ours = raw::measures(nx, ny, nz);
    let theirs = measures(nx, ny, nz);
    assert_eq!(
        (ours.number, ours.points, ours.tetrahedra),
        (theirs.number, theirs.points as u64, theirs.tetrahedra as u64),
        "{nx} by {ny} by {nz}"
    );
}

#[test]
fn every_size() {
    for nx in 0..70 {
        for ny in [0, 1, 2, 3, 31, 63, 64, 65, 66] {
            for nz in [0, 1, 2, 5, 63, 64, 65, 255, u32::MAX] {
                same(nx, ny, nz);
                same(nz, nx, ny);
                same(ny, nz, nx);
            }
        }
    }
}
