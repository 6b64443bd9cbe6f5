//! The three formats hold the same mesh: read back, every one has the nodes and elements of the filling, and every element's
//! six-volume, from the coordinates as written, is above zero. In cubes and in millimetres the coordinates are the library's answers.
use mesh::{abaqus, block, gmsh, vtk, Mesh, Point, CUBES};
use reference::block::Block;
use reference::blockfile::{fill_block, write};
use reference::generate::{any_band, any_block, block, for_band, wide_band, CUTTINGS, MIXES};
use reference::random::Random;
use reference::shapes::{mount, sphere, tenth_band};
use std::collections::{BTreeSet, HashSet};

/// Checks one block in cubes through all three formats and answers its mesh.
fn checked(given: &Block, band: u32) -> Mesh {
    let mesh = block::mesh_of_file(&write(given).unwrap(), band, CUBES).unwrap();
    let rows = fill_block(given, band).rows;
    assert_eq!(mesh.elements.len(), rows.len() / 4);
    // nodes are the ids in ascending order, so putting these back yields the rows
    let ids: Vec<u32> = BTreeSet::from_iter(&rows).into_iter().copied().collect();
    assert_eq!(mesh.nodes.len(), ids.len());
    assert!(mesh.elements.as_flattened().iter().map(|&node| ids[node]).eq(rows));
    let formats = [vtk::read(&vtk::write(&mesh)), gmsh::read(&gmsh::write(&mesh)), abaqus::read(&abaqus::write(&mesh))];
    for read in formats {
        let read = read.expect("a file that can be read back");
        assert!(read == mesh);
        assert!(read.elements.iter().all(|&element| read.six_volume(element) > 0.0));
        let used: HashSet<usize> = read.elements.iter().flatten().copied().collect();
        assert_eq!(used.len(), read.nodes.len());
    }
    mesh
}

#[test]
fn small_blocks() {
    let mut random = Random::new(91);
    let filled = (0..400).filter(|_| !checked(&any_block(&mut random, 5), 0).elements.is_empty());
    assert!(filled.count() > 100);
}

#[test]
fn small_blocks_with_a_band() {
    let mut random = Random::new(95);
    let mut filled = 0;
    for n in 0..200 {
        let given = any_block(&mut random, 5);
        let band = [any_band, wide_band][n % 2](&mut random, &given);
        filled += usize::from(!checked(&for_band(given, band), band).elements.is_empty());
    }
    assert!(filled > 50, "{filled}");
}

#[test]
fn long_blocks() {
    let mut random = Random::new(92);
    for sizes in [[64, 3, 4], [3, 64, 4], [4, 3, 64], [20, 20, 20], [64, 1, 1]] {
        let (mix, cutting) = (random.pick(&MIXES), random.pick(&CUTTINGS));
        checked(&block(&mut random, sizes, mix, cutting), 0);
    }
}

#[test]
fn the_mount() {
    let (mount, band) = (mount(), tenth_band(&mount()));
    let [mesh, banded] = [0, band].map(|band| checked(&for_band(mount.clone(), band), band));
    assert!(mesh.elements.len() > 50_000 && banded.elements.len() > 20_000);
}

/// 64 by 64 by 64 cubes, with the rows that the papers give for it.
#[test]
fn the_largest_sphere() {
    let mesh = checked(&sphere(), 0);
    assert_eq!(mesh.elements.len(), 1_218_864);
}

/// The first row of document 01 (P1) and the fifteen nodes: the middle point, and the cuts of its fourteen edges.
#[test]
fn the_given_case_in_words() {
    let in_steps = block::mesh_of_file(&write(&Block::given_case()).unwrap(), 0, 1.0).unwrap();
    assert_eq!((in_steps.nodes.len(), in_steps.elements.len()), (15, 24));
    assert_eq!(in_steps.six_volume(in_steps.elements[0]), 8_388_608.0);
    let corners = in_steps.elements[0].map(|node| in_steps.nodes[node]);
    assert_eq!(corners, [[512.0, 512.0, 512.0], [512.0, 512.0, 256.0], [640.0, 384.0, 384.0], [384.0, 384.0, 384.0]]);

    let mesh = checked(&Block::given_case(), 0);
    assert_eq!(mesh.elements, in_steps.elements);
    let [a, b, c, d] = mesh.elements[0];

    let text = vtk::write(&mesh);
    assert!(text.starts_with("# vtk DataFile Version 3.0\nYakuemi\nASCII\nDATASET UNSTRUCTURED_GRID\nPOINTS 15 double\n1.0 1.0 1.0\n"));
    assert!(text.contains(&format!("\nCELLS 24 120\n4 {a} {b} {c} {d}\n")));
    assert!(text.ends_with(&("CELL_TYPES 24\n".to_string() + &"10\n".repeat(24))));

    let [a, b, c, d] = [a + 1, b + 1, c + 1, d + 1];
    let text = gmsh::write(&mesh);
    assert!(text.starts_with("$MeshFormat\n2.2 0 8\n$EndMeshFormat\n$Nodes\n15\n1 1.0 1.0 1.0\n"));
    assert!(text.contains(&format!("\n$EndNodes\n$Elements\n24\n1 4 2 1 1 {a} {b} {c} {d}\n")));
    assert!(text.ends_with("\n$EndElements\n"));

    let text = abaqus::write(&mesh);
    assert!(text.starts_with("*NODE, NSET=NALL\n1, 1.0, 1.0, 1.0\n"));
    assert!(text.contains(&format!("\n*ELEMENT, TYPE=C3D4, ELSET=RUBBER\n1, {a}, {b}, {c}, {d}\n")));
}

#[test]
fn a_swapped_element_would_be_seen() {
    let mut mesh = checked(&Block::given_case(), 0);
    mesh.elements[3].swap(2, 3);
    let read = vtk::read(&vtk::write(&mesh)).unwrap();
    assert!(read.six_volume(read.elements[3]) < 0.0);
}

/// Both ends of the range, the unit of cubes of 2 mm, and some at which the products are rounded; and whether every coordinate fits
/// into the 20 characters of the input file. It does at steps of 0.01 mm or more, and where a step is a short fraction.
const UNITS: [(f64, bool); 6] =
    [(1.0 / 1_048_576.0, false), (16.0, true), (0.00390625, true), (0.1, true), (1.0 / 3.0, true), (1e-5, false)];

/// The bits of all coordinates, one after another.
fn bits(points: &[Point]) -> Vec<u64> {
    points.iter().flatten().map(|number| number.to_bits()).collect()
}

/// What the library answers for the nodes of a block, the ids of its rows in ascending order.
fn answers(given: &Block, unit: f64) -> Vec<Point> {
    let tables = fill_block(given, 0);
    let place = |id| yakuemi::place_mm(given.sizes, &given.cuts, &tables.state, id, unit).unwrap();
    BTreeSet::from_iter(tables.rows).into_iter().map(place).collect()
}

/// The coordinates of an input file as they stand in it.
fn words(text: &str) -> Vec<&str> {
    let nodes = text.lines().skip(1).take_while(|line| !line.starts_with('*'));
    nodes.flat_map(|line| line.split(", ").skip(1)).collect()
}

/// Whether the text of a coordinate in the input file is the number itself. If it is not, then the number has too many digits for
/// 20 characters, and the text has as many as fit: 16, and an exponent.
fn is_itself(word: &str, number: f64) -> bool {
    assert!(word.len() <= 20, "{word}");
    let read: f64 = word.parse().unwrap();
    if read.to_bits() == number.to_bits() {
        return true;
    }
    assert!(format!("{number:?}").len() > 20 && format!("{number:e}").len() > 20, "{word} for {number:e}");
    assert!(word.len() == 20 && (read - number).abs() < 1e-15 * number, "{word} for {number:e}");
    false
}

/// Checks one block at one unit through all three formats and answers how many coordinates the input file has, and how many of
/// them are not the numbers themselves.
fn checked_at(given: &Block, unit: f64) -> [usize; 2] {
    let mesh = block::mesh_of_file(&write(given).unwrap(), 0, unit).unwrap();
    let answers = answers(given, unit);
    let input = abaqus::write(&mesh);
    let [vtk, gmsh, abaqus] = [vtk::read(&vtk::write(&mesh)), gmsh::read(&gmsh::write(&mesh)), abaqus::read(&input)].map(Option::unwrap);
    for read in [&vtk, &gmsh, &abaqus] {
        assert!(read.elements == mesh.elements);
        assert!(read.elements.iter().all(|&element| read.six_volume(element) > 0.0));
    }
    assert!(bits(&vtk.nodes) == bits(&answers));
    assert!(bits(&gmsh.nodes) == bits(&answers));
    let (words, numbers) = (words(&input), answers.concat());
    assert_eq!(words.len(), numbers.len());
    let rounded = words.iter().zip(&numbers).filter(|(word, &number)| !is_itself(word, number));
    [numbers.len(), rounded.count()]
}

#[test]
fn millimetres() {
    let mut random = Random::new(93);
    let blocks: Vec<Block> = (0..60).map(|_| any_block(&mut random, 5)).chain([mount()]).collect();
    for (unit, fits) in UNITS {
        let counts = blocks.iter().map(|given| checked_at(given, unit));
        let [all, rounded] = counts.fold([0; 2], |sum, count| [sum[0] + count[0], sum[1] + count[1]]);
        assert!(all > 40_000);
        assert_eq!(rounded == 0, fits, "{rounded} of {all} at {unit:e}");
    }
}

/// Without a unit the coordinates are in cubes: the whole numbers of the place call, over 512.
#[test]
fn cubes_are_places_over_512() {
    for given in [Block::given_case(), mount()] {
        let tables = fill_block(&given, 0);
        let place = |id| yakuemi::place(given.sizes, &given.cuts, &tables.state, id).unwrap();
        let places = BTreeSet::from_iter(tables.rows).into_iter().map(place);
        let cubes: Vec<Point> = places.map(|place| place.map(|steps| f64::from(steps) / 512.0)).collect();
        assert_eq!(bits(&checked(&given, 0).nodes), bits(&cubes));
    }
}

/// Numbers at the border of 20 characters, with their text in the input file.
#[test]
fn numbers_of_the_input_file() {
    let cases = [
        (0.0, "0.0"),
        (1.0, "1.0"),
        (524288.0, "524288.0"),
        (174762.66666666666, "174762.66666666666"),
        (51.2, "51.2"),
        (0.010000000000000002, "0.010000000000000002"),
        (0.012345678901234567, "0.012345678901234567"),
        // 17 digits below 0.01: one is given up
        (0.0012345678901234567, "1.234567890123457e-3"),
        (0.0078124999999999965, "7.812499999999997e-3"),
        (0.00012345678901234567, "1.234567890123457e-4"),
        (0.000012345678901234567, "1.234567890123457e-5"),
        (0.0000012345678901234567, "1.234567890123457e-6"),
        // 16 digits: all of them fit, with an exponent where the zeros would take their room
        (0.001234567890123456, "0.001234567890123456"),
        (0.0001234567890123456, "1.234567890123456e-4"),
        (0.00001234567890123456, "1.234567890123456e-5"),
        // 15 digits and fewer
        (0.000123456789012345, "0.000123456789012345"),
        (0.0000123456789012345, "1.23456789012345e-5"),
        (0.00001, "1e-5"),
        (1.0 / 1_048_576.0, "9.5367431640625e-7"),
    ];
    let expected: Vec<&str> = cases.iter().flat_map(|&(_, word)| [word; 3]).collect();
    let numbers = cases.map(|(number, _)| number);
    assert_eq!(words(&input_of(&numbers)), expected);

    // any digits, at every size from the least coordinate above zero, one step of the least unit, to the most
    let mut random = Random::new(94);
    let mut any = || f64::from_bits((random.between(1023 - 20, 1023 + 18) as u64) << 52 | random.bits() >> 12);
    let numbers: Vec<f64> = (0..100_000).map(|_| any()).collect();
    let input = input_of(&numbers);
    let rounded = words(&input).chunks(3).zip(&numbers).filter(|(word, &number)| !is_itself(word[0], number)).count();
    assert!(rounded > 10_000, "{rounded}");
}

/// The input file of nodes with these numbers for coordinates.
fn input_of(numbers: &[f64]) -> String {
    let nodes = numbers.iter().map(|&number| [number; 3]).collect();
    abaqus::write(&Mesh { nodes, elements: Vec::new() })
}
