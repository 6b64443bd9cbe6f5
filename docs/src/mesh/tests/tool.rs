//! The tool itself: what it writes, what it prints, and how it ends.
use mesh::{abaqus, block, gmsh, view, vtk, Mesh, CUBES};
use reference::block::Block;
use reference::blockfile::{fill_block, write};
use reference::generate::{block, for_band, Cutting, MIXES};
use reference::random::Random;
use reference::shapes::{emptied, mount, tenth_band};
use std::collections::BTreeSet;
use std::fs;
use std::path::{Path, PathBuf};
use std::process::Command;

/// A fresh folder for one test.
fn folder(name: &str) -> PathBuf {
    let folder = PathBuf::from(env!("CARGO_TARGET_TMPDIR")).join(name);
    let _ = fs::remove_dir_all(&folder);
    fs::create_dir_all(&folder).unwrap();
    folder
}

/// Runs the tool in a folder: what it printed, and its exit code.
fn run(folder: &Path, arguments: &[&str]) -> (String, Option<i32>) {
    let output = Command::new(env!("CARGO_BIN_EXE_mesh")).args(arguments).current_dir(folder).output().unwrap();
    (String::from_utf8(output.stdout).unwrap(), output.status.code())
}

/// The meshes of the three files that the tool wrote as `out`.
fn meshes(folder: &Path) -> [Mesh; 3] {
    let text = |name: &str| fs::read_to_string(folder.join(name)).unwrap();
    [vtk::read(&text("out.vtk")), gmsh::read(&text("out.msh")), abaqus::read(&text("out.inp"))].map(Option::unwrap)
}

/// The three files that the tool wrote as `out`, byte for byte. They are taken away, so that those of the next run are its own.
fn taken(folder: &Path) -> [Vec<u8>; 3] {
    ["out.vtk", "out.msh", "out.inp"].map(|name| {
        let text = fs::read(folder.join(name)).unwrap();
        fs::remove_file(folder.join(name)).unwrap();
        text
    })
}

#[test]
fn writes_three_files_of_one_mesh() {
    let folder = folder("three");
    fs::write(folder.join("given"), write(&Block::given_case()).unwrap()).unwrap();
    assert_eq!(run(&folder, &["given", "out"]), ("15 nodes, 24 tetrahedra\n".to_string(), Some(0)));
    let mesh = block::mesh_of_file(&fs::read(folder.join("given")).unwrap(), 0, CUBES).unwrap();
    for read in meshes(&folder) {
        assert_eq!(read, mesh);
    }
}

/// With a unit all three files hold, bit for bit, what the library answers for the ids of the rows.
#[test]
fn writes_millimetres() {
    let folder = folder("millimetres");
    let given = Block::given_case();
    fs::write(folder.join("given"), write(&given).unwrap()).unwrap();
    let tables = fill_block(&given, 0);
    let ids = BTreeSet::from_iter(tables.rows);
    for unit in ["0.1", "0.00390625", "9.5367431640625e-7", "16"] {
        assert_eq!(run(&folder, &["--unit", unit, "given", "out"]), ("15 nodes, 24 tetrahedra\n".to_string(), Some(0)));
        let place = |&id| yakuemi::place_mm(given.sizes, &given.cuts, &tables.state, id, unit.parse().unwrap());
        let answers: Vec<[u64; 3]> = ids.iter().map(|id| place(id).unwrap().map(f64::to_bits)).collect();
        for mesh in meshes(&folder) {
            let written: Vec<[u64; 3]> = mesh.nodes.iter().map(|node| node.map(f64::to_bits)).collect();
            assert_eq!(written, answers, "{unit}");
        }
    }
}

/// The corners of document 01's first row, for cubes with a side of 51.2 mm: 384 times the double that is nearest to 0.1 is no longer
/// the double that is nearest to 38.4.
#[test]
fn writes_millimetres_in_words() {
    let folder = folder("words");
    fs::write(folder.join("given"), write(&Block::given_case()).unwrap()).unwrap();
    assert_eq!(run(&folder, &["--unit", "0.1", "given", "out"]).1, Some(0));
    let near = 38.400000000000006;
    for mesh in meshes(&folder) {
        let corners = mesh.elements[0].map(|node| mesh.nodes[node]);
        assert_eq!(corners, [[51.2, 51.2, 51.2], [51.2, 51.2, 25.6], [64.0, near, near], [near, near, near]]);
    }
    let holds = |name: &str, line: &str| fs::read_to_string(folder.join(name)).unwrap().contains(line);
    assert!(holds("out.vtk", "POINTS 15 double\n51.2 51.2 51.2\n"));
    assert!(holds("out.msh", "$Nodes\n15\n1 51.2 51.2 51.2\n"));
    assert!(holds("out.inp", "*NODE, NSET=NALL\n1, 51.2, 51.2, 51.2\n"));
}

/// The given case's samples are 5 and -5: by the band 5 its cut bytes are all strays, which mending clears.
#[test]
fn fills_with_a_band() {
    let folder = folder("band");
    fs::write(folder.join("given"), write(&Block::given_case()).unwrap()).unwrap();
    for (band, cleared, line) in [("0", 0, "15 nodes, 24"), ("4", 0, "15 nodes, 24"), ("5", 14, "0 nodes, 0"), ("32767", 14, "0 nodes, 0")] {
        let line = format!("{line} tetrahedra\n");
        let filled = if cleared == 0 { (line.clone(), Some(0)) } else { ("refused 7 30\n".to_string(), Some(1)) };
        assert_eq!(run(&folder, &["--band", band, "given", "out"]), filled, "{band}");
        let mended = (format!("mended: 0 filled in, {cleared} cleared\n{line}"), Some(0));
        assert_eq!(run(&folder, &["--mend", "--band", band, "given", "out"]), mended, "{band}");
    }
}

/// The mount with a band that takes in a tenth of its points, without the cut bytes that are strays by it; the band, and where they were.
fn banded_mount() -> (Block, u32, Vec<usize>) {
    let scanned = mount();
    let band = tenth_band(&scanned);
    let block = for_band(mount(), band);
    let strays: Vec<usize> = (0..scanned.cuts.len()).filter(|&offset| block.cuts[offset] != scanned.cuts[offset]).collect();
    assert!(!strays.is_empty());
    (block, band, strays)
}

/// The mount as a scanner without a band wrote it is refused with one, and mended it is filled as the mount without those strays.
#[test]
fn mends_with_a_band() {
    let folder = folder("mended band");
    let (banded, band, strays) = banded_mount();
    fs::write(folder.join("scanned"), write(&mount()).unwrap()).unwrap();
    fs::write(folder.join("banded"), write(&banded).unwrap()).unwrap();
    let said = &band.to_string()[..];
    let (line, code) = run(&folder, &["--band", said, "banded", "out"]);
    let good = taken(&folder);
    assert_eq!(code, Some(0));
    assert_eq!(run(&folder, &["--band", said, "scanned", "out"]), (format!("refused 7 {}\n", strays[0]), Some(1)));
    for arguments in [["--band", said, "--mend", "scanned", "out"], ["--mend", "--band", said, "scanned", "out"]] {
        assert_eq!(run(&folder, &arguments), (format!("mended: 0 filled in, {} cleared\n{line}", strays.len()), Some(0)));
        assert!(taken(&folder) == good);
    }
}

/// The mount with a tenth of its points in the band: the files hold that filling, in cubes and, whichever option comes first, in
/// millimetres.
#[test]
fn fills_a_part_with_a_band() {
    let folder = folder("banded");
    let (mount, band, _) = banded_mount();
    let file = write(&mount).unwrap();
    let tables = fill_block(&mount, band);
    assert!(tables.rows != fill_block(&reference::shapes::mount(), 0).rows);
    let nodes = BTreeSet::from_iter(&tables.rows).len();
    let line = format!("{nodes} nodes, {} tetrahedra\n", tables.rows.len() / 4);
    fs::write(folder.join("mount"), &file).unwrap();
    let (said, mm) = (&band.to_string()[..], 0.00390625);
    let runs: [(&[&str], f64); 3] = [
        (&["--band", said, "mount", "out"], CUBES),
        (&["--band", said, "--unit", "0.00390625", "mount", "out"], mm),
        (&["--unit", "0.00390625", "--band", said, "mount", "out"], mm),
    ];
    for (arguments, unit) in runs {
        assert_eq!(run(&folder, arguments), (line.clone(), Some(0)), "{arguments:?}");
        let mesh = block::mesh_of_file(&file, band, unit).unwrap();
        assert!(meshes(&folder).iter().all(|read| *read == mesh), "{arguments:?}");
    }
}

/// The given case as an old export, with bytes missing or stray: refused as it is, mended its mesh is that of the given case, as the
/// straight line from 5 to -5 passes zero halfway too. The file itself stays.
#[test]
fn mends_an_old_export() {
    let folder = folder("old");
    let given = Block::given_case();
    fs::write(folder.join("given"), write(&given).unwrap()).unwrap();
    assert_eq!(run(&folder, &["given", "out"]).1, Some(0));
    let good = taken(&folder);
    let missing = (0..given.cuts.len()).filter(|&offset| given.cuts[offset] != 0).map(|offset| (offset, 0)).collect();
    let cases = [
        (vec![(91, 0)], "refused 6 91\n", "mended: 1 filled in, 0 cleared\n"),
        (vec![(0, 7)], "refused 7 0\n", "mended: 0 filled in, 1 cleared\n"),
        (vec![(182, 255)], "refused 7 182\n", "mended: 0 filled in, 1 cleared\n"),
        (vec![(91, 0), (94, 0), (182, 1), (216, 0), (244, 255)], "refused 6 91\n", "mended: 3 filled in, 2 cleared\n"),
        (missing, "refused 6 30\n", "mended: 14 filled in, 0 cleared\n"),
    ];
    for (changes, refused, mended) in cases {
        let mut old = given.clone();
        changes.into_iter().for_each(|(offset, byte)| old.cuts[offset] = byte);
        let file = write(&old).unwrap();
        fs::write(folder.join("old"), &file).unwrap();
        assert_eq!(run(&folder, &["old", "out"]), (refused.to_string(), Some(1)));
        assert_eq!(fs::read_dir(&folder).unwrap().count(), 2);
        assert_eq!(run(&folder, &["--mend", "old", "out"]), (format!("{mended}15 nodes, 24 tetrahedra\n"), Some(0)));
        assert!(taken(&folder) == good && fs::read(folder.join("old")).unwrap() == file, "{mended}");
    }
}

/// The mount as an old export, without its cut bytes and with strays, and how many there are of each.
fn old_mount() -> (Block, usize, usize) {
    let (good, mut old) = (mount(), emptied(mount()));
    let strays = (0..good.cuts.len()).filter(|&offset| good.cuts[offset] == 0).step_by(1000);
    let cleared = strays.map(|offset| old.cuts[offset] = 128).count();
    let filled = good.cuts.iter().filter(|&&byte| byte != 0).count();
    (old, filled, cleared)
}

/// As the mount's own cuts are straight-line guesses, its files come out the same, whichever option comes first, and with a band as those
/// of the mount without the cuts beside it.
#[test]
fn mends_a_part() {
    let folder = folder("old part");
    let (block, band, strays) = banded_mount();
    let (fewer, band) = (strays.len(), &band.to_string()[..]);
    let (old, filled, cleared) = old_mount();
    fs::write(folder.join("good"), write(&mount()).unwrap()).unwrap();
    fs::write(folder.join("banded"), write(&block).unwrap()).unwrap();
    fs::write(folder.join("old"), write(&old).unwrap()).unwrap();
    let (unit, banded): (&[&str], &[&str]) = (&["--unit", "0.1"], &["--band", band]);
    let choices: [(&[&[&str]], &str, usize); 4] =
        [(&[], "good", 0), (&[unit], "good", 0), (&[banded], "banded", fewer), (&[unit, banded], "banded", fewer)];
    for (options, name, fewer) in choices {
        let mended = format!("mended: {} filled in, {cleared} cleared\n", filled - fewer);
        let (line, code) = run(&folder, &[&options.concat(), &[name, "out"][..]].concat());
        let good = taken(&folder);
        assert_eq!(code, Some(0));
        for at in 0..=options.len() {
            let arguments = [&options[..at].concat(), &["--mend"][..], &options[at..].concat(), &["old", "out"]].concat();
            assert_eq!(run(&folder, &arguments), (format!("{mended}{line}"), Some(0)), "{arguments:?}");
            assert!(taken(&folder) == good, "{arguments:?}");
        }
    }
}

/// Files that want no mending are filled as without it, with cuts that no straight line has.
#[test]
fn leaves_good_files_alone() {
    let folder = folder("good");
    let mut random = Random::new(96);
    let mut moved = Block::given_case();
    moved.cuts[91] = 193;
    let blocks = MIXES.map(|mix| block(&mut random, [5, 4, 5], mix, Cutting::Wild)).into_iter().chain([moved, mount()]);
    let mut filled = 0;
    for block in blocks {
        fs::write(folder.join("file"), write(&block).unwrap()).unwrap();
        let (line, code) = run(&folder, &["file", "out"]);
        let good = taken(&folder);
        assert_eq!(code, Some(0));
        assert_eq!(run(&folder, &["--mend", "file", "out"]), (format!("mended: 0 filled in, 0 cleared\n{line}"), Some(0)));
        assert!(taken(&folder) == good, "{line}");
        filled += usize::from(line != "0 nodes, 0 tetrahedra\n");
    }
    assert!(filled > 6, "{filled}");
}

/// Mending does not see to the rim or the unit, and neither a file that cannot be read nor one with too large a band is mended.
#[test]
fn says_why_a_mended_block_is_refused_and_writes_nothing() {
    let folder = folder("mended refused");
    let given = Block::given_case();
    let mut gap = given.clone();
    gap.cuts[91] = 0;
    let mut rim = given.clone();
    rim.samples[27] = 1;
    let mut size = write(&given).unwrap();
    size[1] = 65;
    let mut short = write(&gap).unwrap();
    short.pop();
    let [gap, rim] = [gap, rim].map(|block| write(&block).unwrap());
    let cases: [(&[u8], &[&str], &str); 6] = [
        (&rim, &[], "mended: 10 filled in, 1 cleared\nrefused 5 27\n"),
        (&rim, &["--band", "0"], "mended: 10 filled in, 1 cleared\nrefused 5 27\n"),
        (&gap, &["--band", "32768"], "refused 14 0\n"),
        (&gap, &["--unit", "0"], "mended: 1 filled in, 0 cleared\nrefused 13 0\n"),
        (&size, &[], "refused 1 0\n"),
        (&short, &[], "refused 11 0\n"),
    ];
    for (file, options, lines) in cases {
        fs::write(folder.join("file"), file).unwrap();
        let arguments = [&["--mend"], options, &["file", "out"]].concat();
        assert_eq!(run(&folder, &arguments), (lines.to_string(), Some(1)), "{arguments:?}");
    }
    assert_eq!(run(&folder, &["--mend", "no such file", "out"]).1, Some(2));
    assert_eq!(fs::read_dir(&folder).unwrap().count(), 1);
}

#[test]
fn says_why_a_block_is_refused_and_writes_nothing() {
    let folder = folder("refused");
    let given = Block::given_case();
    let mut gap = given.clone();
    gap.cuts[91] = 0;
    let mut stray = given.clone();
    stray.cuts[0] = 7;
    let mut rim = given.clone();
    rim.samples[27] = 1;
    let mut size = write(&given).unwrap();
    size[1] = 65;
    let mut longer = write(&given).unwrap();
    longer.push(1);
    let cases = [
        (write(&gap).unwrap(), "refused 6 91\n"),
        (write(&stray).unwrap(), "refused 7 0\n"),
        (write(&rim).unwrap(), "refused 5 27\n"),
        (size, "refused 1 0\n"),
        (longer, "refused 11 0\n"),
        (vec![2, 2], "refused 11 0\n"),
    ];
    for (file, line) in cases {
        fs::write(folder.join("file"), file).unwrap();
        assert_eq!(run(&folder, &["file", "out"]), (line.to_string(), Some(1)));
    }
    assert_eq!(run(&folder, &["no such file", "out"]).1, Some(2));
    assert_eq!(run(&folder, &["file"]).1, Some(2));
    assert_eq!(fs::read_dir(&folder).unwrap().count(), 1);
}

/// Units that the library refuses, also for a block without rows (document 01's P2). What is wrong with the block comes first.
#[test]
fn says_that_a_unit_is_refused_and_writes_nothing() {
    let folder = folder("unit");
    let given = Block::given_case();
    let mut empty = given.clone();
    empty.cuts[91] = 63;
    let mut gap = given.clone();
    gap.cuts[91] = 0;
    for (block, line) in [(&given, "refused 13 0\n"), (&empty, "refused 13 0\n"), (&gap, "refused 6 91\n")] {
        fs::write(folder.join("file"), write(block).unwrap()).unwrap();
        for unit in ["0", "-0.0", "-0.1", "9.536743164062499e-7", "16.000000000000004", "1e-400", "1e400", "inf", "-inf", "nan"] {
            assert_eq!(run(&folder, &["--unit", unit, "file", "out"]), (line.to_string(), Some(1)), "{unit}");
        }
    }
    assert_eq!(fs::read_dir(&folder).unwrap().count(), 1);
    fs::write(folder.join("file"), write(&empty).unwrap()).unwrap();
    assert_eq!(run(&folder, &["--unit", "0.1", "file", "out"]), ("0 nodes, 0 tetrahedra\n".to_string(), Some(0)));
    assert_eq!(fs::read_dir(&folder).unwrap().count(), 4);
}

/// Bands that the library refuses, also those that 32 bits do not hold. What is wrong with the file comes first; with its samples, its
/// cut bytes or the unit, later.
#[test]
fn says_that_a_band_is_refused_and_writes_nothing() {
    let folder = folder("no band");
    let given = Block::given_case();
    let mut gap = given.clone();
    gap.cuts[91] = 0;
    let files = [(write(&given).unwrap(), "refused 14 0\n"), (write(&gap).unwrap(), "refused 14 0\n"), (vec![2, 2], "refused 11 0\n")];
    for (file, line) in files {
        fs::write(folder.join("file"), file).unwrap();
        for band in ["32768", "65536", "4294967295", "4294967296", "4294967301", "18446744073709551616"] {
            let ways: [&[&str]; 4] = [
                &["--band", band, "file", "out"],
                &["--band", band, "--unit", "0", "file", "out"],
                &["--band", band, "--picture", "file", "out"],
                &["--picture", "--band", band, "file", "out"],
            ];
            for arguments in ways {
                assert_eq!(run(&folder, arguments), (line.to_string(), Some(1)), "{arguments:?}");
            }
        }
    }
    fs::write(folder.join("file"), write(&gap).unwrap()).unwrap();
    assert_eq!(run(&folder, &["--band", "4", "file", "out"]), ("refused 6 91\n".to_string(), Some(1)));
    assert_eq!(run(&folder, &["--band", "5", "file", "out"]), ("refused 7 30\n".to_string(), Some(1)));
    fs::write(folder.join("file"), write(&given).unwrap()).unwrap();
    assert_eq!(run(&folder, &["--unit", "0", "--band", "4", "file", "out"]), ("refused 13 0\n".to_string(), Some(1)));
    assert_eq!(fs::read_dir(&folder).unwrap().count(), 1);
}

#[test]
fn says_how_it_is_used_and_writes_nothing() {
    let folder = folder("usage");
    fs::write(folder.join("file"), write(&Block::given_case()).unwrap()).unwrap();
    let wrong: [&[&str]; 37] = [
        &[],
        &["file"],
        &["file", "out", "more"],
        &["--unit"],
        &["--unit", "0.1"],
        &["--unit", "0.1", "file"],
        &["--unit", "0.1", "file", "out", "more"],
        &["--unit", "0.1", "-file", "out"],
        &["--unit", "", "file", "out"],
        &["--unit", "0,1", "file", "out"],
        &["--unit", "0.1mm", "file", "out"],
        &["--unit", "1/512", "file", "out"],
        &["file", "out", "--unit", "0.1"],
        &["--band"],
        &["--band", "3"],
        &["--band", "3", "file"],
        &["--band", "3", "file", "out", "more"],
        &["--band", "", "file", "out"],
        &["--band", "x", "file", "out"],
        &["--band", "-1", "file", "out"],
        &["--band", "3.0", "file", "out"],
        &["--band", "--unit", "0.1", "file", "out"],
        &["--band", "3", "--band", "3", "file", "out"],
        &["--unit", "0.1", "--unit", "0.1", "file", "out"],
        &["--band", "3", "--part", "out"],
        &["--picture", "--unit", "0.1", "file", "out"],
        &["--picture", "--band", "3", "file"],
        &["file", "out", "--band", "3"],
        &["--mend"],
        &["--mend", "file"],
        &["--mend", "file", "out", "more"],
        &["--mend", "-file", "out"],
        &["--mend", "--mend", "file", "out"],
        &["--mend", "--band", "3", "--mend", "file", "out"],
        &["--mend", "--part", "out"],
        &["--mend", "--picture", "--unit", "0.1", "file", "out"],
        &["file", "out", "--mend"],
    ];
    for arguments in wrong {
        assert_eq!(run(&folder, arguments), (String::new(), Some(2)), "{arguments:?}");
    }
    assert_eq!(fs::read_dir(&folder).unwrap().count(), 1);
}

/// The README's picture is what the tool draws of the part that it writes.
#[test]
fn the_picture_is_the_tools_own() {
    let folder = folder("picture");
    assert_eq!(run(&folder, &["--part", "mount"]).1, Some(0));
    assert_eq!(run(&folder, &["--picture", "mount", "mesh.png"]).1, Some(0));
    let kept = PathBuf::from(env!("CARGO_MANIFEST_DIR")).join("../../mesh.png");
    assert!(fs::read(folder.join("mesh.png")).unwrap() == fs::read(kept).unwrap());
}

/// A picture of the part as filled with a band.
#[test]
fn draws_with_a_band() {
    let folder = folder("banded picture");
    let (mount, band, _) = banded_mount();
    let file = write(&mount).unwrap();
    let mesh = block::mesh_of_file(&file, band, CUBES).unwrap();
    let line = format!("{} faces\n", view::cut_open(&mesh, view::quarter_away(&mesh)).len());
    fs::write(folder.join("mount"), &file).unwrap();
    let arguments = ["--picture", "--band", &band.to_string(), "mount", "banded.png"];
    assert_eq!(run(&folder, &arguments), (line, Some(0)));
    let kept = PathBuf::from(env!("CARGO_MANIFEST_DIR")).join("../../mesh.png");
    assert!(fs::read(folder.join("banded.png")).unwrap() != fs::read(kept).unwrap());
}

/// The mount as an old export has the README's picture too.
#[test]
fn draws_what_it_mended() {
    let folder = folder("mended picture");
    let (old, filled, cleared) = old_mount();
    fs::write(folder.join("old"), write(&old).unwrap()).unwrap();
    let lines = format!("mended: {filled} filled in, {cleared} cleared\n11586 faces\n");
    assert_eq!(run(&folder, &["--mend", "--picture", "old", "mesh.png"]), (lines, Some(0)));
    let kept = PathBuf::from(env!("CARGO_MANIFEST_DIR")).join("../../mesh.png");
    assert!(fs::read(folder.join("mesh.png")).unwrap() == fs::read(kept).unwrap());
    // by this band no rubber is left, and no edge crosses
    let arguments = ["--picture", "--band", "32767", "--mend", "old", "nothing.png"];
    assert_eq!(run(&folder, &arguments), (format!("mended: 0 filled in, {cleared} cleared\n0 faces\n"), Some(0)));
}
