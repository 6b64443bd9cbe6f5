//! Fills a block file through the library and writes its mesh, or a picture of it.

use mesh::{abaqus, block, gmsh, picture, png, view, vtk, Mesh, CUBES};
use std::error::Error;
use std::fs;
use std::num::IntErrorKind;
use std::process::ExitCode;
use yakuemi::Mending;

const USAGE: &str = "\
usage: mesh FILE OUT           a block file's mesh in cubes, as OUT.vtk, OUT.msh (Gmsh 2.2) and OUT.inp (C3D4)
       mesh --unit MM FILE OUT the same in millimetres; MM is the millimetres per step, a 512th of a cube's side
       mesh --picture FILE PNG a picture of a block file's mesh, cut open
       mesh --part FILE        writes the block file of a part to try: an engine mount
With --band N before FILE, samples of size N or less count as zero: N is the scanner's flicker, 0 to 32767.
With --mend before FILE, the cut table is mended before the block is filled, by the same band: one more line says how many bytes
were missing and are filled in, and how many were stray and are cleared. FILE stays as it is. An old export wants it, and so does
one of a scanner that knows of no band, as it has cuts beside samples that count as zero.
A block, a band or a unit that the library refuses is answered with `refused`, number and place, and exit code 1.
";

fn main() -> ExitCode {
    let arguments: Vec<String> = std::env::args().skip(1).collect();
    let arguments: Vec<&str> = arguments.iter().map(String::as_str).collect();
    let Some(done) = carry_out(&arguments, Options::default()) else {
        eprint!("{USAGE}");
        return ExitCode::from(2);
    };
    match done {
        Ok(line) => {
            println!("{line}");
            ExitCode::SUCCESS
        }
        Err(error) => {
            println!("{error}");
            let refused = error.is::<yakuemi::Refusal>();
            ExitCode::from(if refused { 1 } else { 2 })
        }
    }
}

type Done = Result<String, Box<dyn Error>>;

/// What the options say.
#[derive(Clone, Copy, Default, PartialEq)]
struct Options {
    mend: bool,
    band: Option<u32>,
    unit: Option<f64>,
    picture: bool,
}

/// Does what the arguments say, after these options; none if they say nothing that the usage has. Options come in any order, each once.
fn carry_out(arguments: &[&str], said: Options) -> Option<Done> {
    let Options { mend, band, unit, picture } = said;
    match *arguments {
        ["--part", file] if said == Options::default() => Some(write_part(file)),
        ["--mend", ref rest @ ..] if !mend => carry_out(rest, Options { mend: true, ..said }),
        ["--band", number, ref rest @ ..] if band.is_none() => carry_out(rest, Options { band: Some(band_of(number)?), ..said }),
        ["--unit", number, ref rest @ ..] if unit.is_none() => carry_out(rest, Options { unit: Some(number.parse().ok()?), ..said }),
        ["--picture", ref rest @ ..] if !picture => carry_out(rest, Options { picture: true, ..said }),
        [file, _] if file.starts_with('-') => None,
        [file, png] if picture && unit.is_none() => Some(write_picture(file, png, said)),
        [file, out] if !picture => Some(write_mesh(file, out, said)),
        _ => None,
    }
}

/// A band as it is handed on. Whether it is too large is for the library to say, and a number that 32 bits do not hold surely is.
fn band_of(number: &str) -> Option<u32> {
    match number.parse() {
        Ok(band) => Some(band),
        Err(error) if *error.kind() == IntErrorKind::PosOverflow => Some(u32::MAX),
        Err(_) => None,
    }
}

/// What was mended is said at once, so that it is known also where the mended block is refused.
fn read_mesh(file: &str, said: Options) -> Result<Mesh, Box<dyn Error>> {
    let mut block = block::read(&fs::read(file)?)?;
    let band = said.band.unwrap_or(0);
    if said.mend {
        let Mending { filled, cleared } = block::mend(&mut block, band)?;
        println!("mended: {filled} filled in, {cleared} cleared");
    }
    Ok(block::mesh_of(&block, band, said.unit.unwrap_or(CUBES))?)
}

fn write_mesh(file: &str, out: &str, said: Options) -> Done {
    let mesh = read_mesh(file, said)?;
    fs::write(format!("{out}.vtk"), vtk::write(&mesh))?;
    fs::write(format!("{out}.msh"), gmsh::write(&mesh))?;
    fs::write(format!("{out}.inp"), abaqus::write(&mesh))?;
    Ok(format!("{} nodes, {} tetrahedra", mesh.nodes.len(), mesh.elements.len()))
}

fn write_part(file: &str) -> Done {
    let mount = reference::shapes::mount();
    let bytes = reference::blockfile::write(&mount).ok_or("the part has more runs than a block file can hold")?;
    fs::write(file, &bytes)?;
    Ok(format!("{} bytes", bytes.len()))
}

fn write_picture(file: &str, png: &str, said: Options) -> Done {
    let mesh = read_mesh(file, said)?;
    let faces = view::cut_open(&mesh, view::quarter_away(&mesh));
    fs::write(png, png::write(&picture::draw(&faces)))?;
    Ok(format!("{} faces", faces.len()))
}
