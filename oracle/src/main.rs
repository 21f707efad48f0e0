//! `oracle COMMAND ..`: see `USAGE`.

use mowfrost_oracle::listing::{listing, replayed};
use mowfrost_oracle::program::{compare, Program, Task, LIMIT, MESHES};
use mowfrost_oracle::reach::Reach;
use mowfrost_oracle::record::Exception;
use mowfrost_oracle::stl::{self, MOUNTS};
use mowfrost_oracle::stored::{self, Stored};
use mowfrost_oracle::{frames, kinds, meshfile, sent};
use std::io::{self, BufWriter, ErrorKind, Read, Write};
use std::process::ExitCode;

mod port;

use port::Run;

const USAGE: &str = "\
oracle: the unchanged Rust original, asked in document 01's words

  oracle listing               standard input: meshes, each a u32 length (little-endian) and so many bytes of the
                               program's format; prints the listing or 'refused N' for each. Meshes near the one
                               exception are named on standard error
  oracle meshes SEED COUNT     writes COUNT meshes in that framing, of every kind in turn
  oracle kinds                 names the kinds, in the order in which 'meshes' takes them
  oracle kinds stl             names the kinds of STL files, in the order in which 'stl' and 'program-stl' take them
  oracle reach SEED COUNT      counts what those meshes reach: verdicts, methods, refusals, branches, triangles left out
  oracle answer                standard input: one file of the program's format, without a length before it; prints its
                               listing or 'refused N', as the program does
  oracle stored                writes the meshes that the crate 'replay' holds (crates/replay/data/meshes), in the framing
                               of 'meshes'
  oracle stored names          names them, a line each
  oracle stored stl            writes the STL files that 'replay' holds (crates/replay/data/mounts), in the same framing
  oracle stored stl names      names them, a line each
  oracle replayed              standard input as for 'listing'; prints what 'replay' has to print (crates/replay/stdout):
                               each listing, under edition 1, and, where the file could be read, 'chain B O net L Z manifold M
                               winding W short R unknown R': boundary-free, over-incident, largest face sum, all sums 0, the
                               two answers, and the refusal of the mesh with one work word less (0 for a record), under
                               edition 1 and under edition 3, which is not known; where the mesh has a record, behind it
                               'pairs C R C R C R': covered and rim cells of the z, y and x footprints, and 'second T B S I':
                               top, bottom, side and inclined under edition 2, their bits in decimal; then a line
                               'written N A short R': length and Adler-32 of the file written back, kind 4 always there, and the
                               refusal of an area one byte short. Behind all meshes 'many 6 6': the refusals of 1,537 floats and
                               of 1,537 ids over an area of one byte
  oracle replayed stl          standard input: STL files in that framing; prints what 'replay' has to print for them, behind
                               all else: each listing or 'refused N'
  oracle answer-stl            standard input: one STL file, without a length before it; prints its listing or 'refused N', as
                               the program does

Against the program:

  oracle program N BIN ..      N files through the program BIN, called with the words behind it, a process a file: meshes of
                               every kind in turn, those by hand of 'stored', and files that are empty, full, far too long or
                               written in parts. Output byte for byte, which is that of edition 1, status and an empty standard
                               error; meshes near the one exception are counted and compared by document 01's exact form; the
                               lines used, range and sliver, and pieces, are by a plain reference; last line 'A agree, D differ'.
                               MOWFROST_WORKERS: so many processes at a time, by default 2
  oracle file NUMBER           writes the file of that number as 'program' sends it
  oracle program-stl N BIN ..  the same for the program that reads STL files: N files of every kind in turn, every other one
                               damaged, those of 'stored stl', and files that are empty, full, a byte or two longer, far too
                               long or written in parts
  oracle file-stl NUMBER       writes the file of that number as 'program-stl' sends it

Against the port (x86-64; first, at the root of the repository: tools/staticlib capi and tools/staticlib probe. For another machine
MOWFROST_PORT names a folder with a libcapi.a and a libprobe.a of its kind when this is built):

  oracle floats N              every float helper on edge patterns and N by chance each, against Rust's operation;
                               last line 'A agree, D differ'
  oracle floats all            the helpers of one f32 on all of its patterns
  oracle speed floats          nanoseconds a call, the port's helper and Rust's operation
  oracle ids N                 every id routine on all short lists, on large ones and on N by chance, over areas that are
                               exact, one word short and longer, against the original (pieces: a plain reference);
                               answers, refusals and every word of the area; last line 'A agree, D differ'
  oracle speed ids             milliseconds a list, the port's routine and the original's
  oracle weld N                the weld on large meshes and on N by chance: new ids, every word of the lent part, and that
                               vertices and ids are as they were; then ε
  oracle speed weld            milliseconds a weld
  oracle raster N              the point test on N points: outside, on the edge or inside. The footprint on large meshes and on
                               N by chance: its bits, its covered and rim cells, every byte of the lent raster, and that
                               vertices and ids are as they were. The edge and the rim are compared with a plain reference,
                               which has to agree with the original where that has an answer; how many cells and scenes had
                               what is counted
  oracle speed raster          milliseconds for the three footprints of a mesh, beside the original and beside a plain form in
                               Rust that counts covered and rim cells
  oracle compute N             the record on large meshes, on lengths about the limit and on N by chance of every kind in
                               turn, each under edition 1, under edition 2 and under editions that are not known, over areas
                               that are exact, one short, longer and far too short: refusals, all words of the record, every
                               row and every place of the areas, and that the mesh is as it was; floats by their bits, with
                               NaNs of all sorts wherever one has to stay, which are counted; meshes near the one exception
                               are counted and compared by document 01's exact form; words 17 to 19, how many triangles are
                               used, out of range and slivers, and 20 to 25, the cells of the three footprints of an open
                               shell, are compared with plain references, and the meshes and footprints that have some of
                               each are counted; so are words 7 to 10 under edition 2, the areas by slope. Their plain form has
                               to give the original's under edition 1, and under edition 2 those of the original with two
                               numbers changed; what came under each edition is counted, and the facets that edition 2 moves,
                               of which none may be top, bottom or side under edition 1; last line 'A agree, D differ'
  oracle moves N               demand 3 on N pairs of every kind in turn, a whole-number mesh and the same moved by whole
                               numbers, half of them under edition 2 and both meshes under one, over areas as for
                               'compute' that hold the same before both calls: the two answers,
                               all words of the record, every place of the areas, that whatever has to stay did, and that
                               whatever has to be cleared is 0; of two open shells best volume, method, trust and bound
                               and the cells of the footprints may differ, and how often they do is counted; so are pairs
                               with an id out of range and with slivers; last line 'A agree, D differ'
  oracle glove N               02's A9 on large meshes, on lengths about the limit and on N by chance of every kind in turn:
                               a mesh and the same with the last two ids of every triangle swapped, under editions and over
                               areas as for 'moves'. The volume is negated, top and bottom have changed places, the rows are turned over
                               and in order, and all else is the same; of two open shells the same words may differ as for
                               'moves', and how often they do is counted; so are pairs with no volume, with a top and a
                               bottom above 0 that differ, and with rows of equal area in another order. Then each id
                               routine on the same ids, both ways round, over areas as for 'ids'; last line 'A agree, D
                               differ'
  oracle stl N                 the readers of STL files, of up to 170 and of up to 10,922 triangles, at every limit by name and on N
                               files by chance of every kind in turn, every other one damaged, over areas that are exact,
                               longer, one float or id short, far too short and empty: answers, refusals, every place of both
                               areas and of the file; floats by their bits, but that a NaN that was read may have other
                               digits. Then the record of the mesh that was read, without flags, at unit 0.001 and under
                               edition 1, as for 'compute', beside the original's of the mesh that a plain reader has; what the files had and
                               reached is counted; last line 'A agree, D differ'
  oracle mesh-file SEED COUNT  the writer and the reader of mesh files in bits, at every limit by name; then COUNT round trips each
                               way by chance: a mesh of any bits and lengths, with each pair of flags, to a file and back, and a
                               file with or without kind 4 to a mesh and back; over areas that are exact, longer, one place short,
                               far too short and of nothing. Then COUNT calls of the writer with every set of faults and COUNT
                               damaged files: answers, refusals, every byte of the file beside a plain writer, every place of the
                               areas, and that what was passed is as it was, all bit for bit, NaNs and units too; what was
                               reached is counted; last line 'A agree, D differ'
  oracle speed mesh-file       microseconds a file of the cube, a quarter full and full, written and read, beside plain forms in
                               Rust that try the same: one that makes new vectors, and one that fills the same slices
  oracle speed stl             microseconds a file of up to 170 and of up to 10,922 triangles, beside a plain form in Rust that
                               tries the same and fills the same two slices
  oracle speed compute         milliseconds a record, at an eighth of the most triangles up to all; nanoseconds for small;
                               under edition 1 beside the original alone and with the plain counts of triangles behind it;
                               under edition 2 beside the original with two numbers changed, its thresholds of slope; and
                               the port's time under 2 to that under 1
  oracle speed                 compute under each edition and each id routine beside the original on the meshes whose ratios
                               are bounded, with the bound; then how the time grows from a quarter of the most triangles to all
  oracle repeat ROUTINE MESH TRIANGLES TIMES
                               calls the port's 'compute' or id routine on a mesh or list that 'speed compute' or 'speed ids'
                               names, and nothing else: for a profiler
";

fn main() -> ExitCode {
    let args: Vec<String> = std::env::args().skip(1).collect();
    let words: Vec<&str> = args.iter().map(String::as_str).collect();
    let done = match words.as_slice() {
        ["listing"] => print_texts(listing, ""),
        ["replayed"] => print_texts(replayed, &meshfile::replayed::many()),
        ["replayed", "stl"] => print_texts(stl::listing, ""),
        ["answer"] => print_answer(listing),
        ["answer-stl"] => print_answer(stl::listing),
        ["stored"] => write_stored(stored::all()),
        ["stored", "names"] => print_stored(stored::all()),
        ["stored", "stl"] => write_stored(stl::stored::all()),
        ["stored", "stl", "names"] => print_stored(stl::stored::all()),
        [command @ ("program" | "program-stl"), n, bin @ ..] if !bin.is_empty() => match (n.parse(), workers()) {
            (Ok(n), Some(workers)) => run_program(task(command), n, bin, workers),
            _ => return usage("N, and MOWFROST_WORKERS where it is set, are whole numbers, the second from 1 up"),
        },
        [command @ ("file" | "file-stl"), number] => match number.parse() {
            Ok(number) => write_out(&(task(command).sent)(number).bytes),
            Err(_) => return usage("NUMBER is a whole number from 0 up"),
        },
        ["kinds"] => print_kinds(kinds::KINDS.iter().map(|kind| kind.name)),
        ["kinds", "stl"] => print_kinds(stl::kinds::kinds().into_iter()),
        [command @ ("meshes" | "reach"), seed, count] => match (seed.parse(), count.parse()) {
            (Ok(seed), Ok(count)) if *command == "meshes" => write_meshes(seed, count),
            (Ok(seed), Ok(count)) => print_reach(seed, count),
            _ => return usage("SEED and COUNT are whole numbers from 0 up"),
        },
        ["mesh-file", seed, count] => match (seed.parse(), count.parse()) {
            (Ok(seed), Ok(count)) => port::run(Run::MeshFile(seed, count)),
            _ => return usage("SEED and COUNT are whole numbers from 0 up"),
        },
        ["floats", "all"] => port::run(Run::FloatsAll),
        [command @ ("floats" | "ids" | "weld" | "raster" | "compute" | "moves" | "glove" | "stl"), n] => {
            match (*command, n.parse()) {
                ("floats", Ok(n)) => port::run(Run::Floats(n)),
                ("ids", Ok(n)) => port::run(Run::Ids(n)),
                ("weld", Ok(n)) => port::run(Run::Weld(n)),
                ("raster", Ok(n)) => port::run(Run::Raster(n)),
                ("compute", Ok(n)) => port::run(Run::Compute(n)),
                ("moves", Ok(n)) => port::run(Run::Moves(n)),
                ("stl", Ok(n)) => port::run(Run::Stl(n)),
                (_, Ok(n)) => port::run(Run::Glove(n)),
                _ => return usage("N is a whole number from 0 up, or 'all' of floats"),
            }
        }
        ["repeat", routine, on, triangles, times] => match (triangles.parse(), times.parse()) {
            (Ok(triangles), Ok(times)) => port::run(Run::Repeat((*routine).into(), (*on).into(), triangles, times)),
            _ => return usage("TRIANGLES and TIMES are whole numbers from 0 up"),
        },
        ["speed"] => port::run(Run::Speed),
        ["speed", "floats"] => port::run(Run::SpeedFloats),
        ["speed", "ids"] => port::run(Run::SpeedIds),
        ["speed", "weld"] => port::run(Run::SpeedWeld),
        ["speed", "raster"] => port::run(Run::SpeedRaster),
        ["speed", "stl"] => port::run(Run::SpeedStl),
        ["speed", "mesh-file"] => port::run(Run::SpeedMeshFile),
        ["speed", "compute"] => port::run(Run::SpeedCompute),
        ["help" | "--help" | "-h"] => {
            print!("{USAGE}");
            return ExitCode::SUCCESS;
        }
        _ => return usage("no such command"),
    };
    match done {
        Ok(code) => code,
        // The reader has seen enough: no fault of ours.
        Err(e) if e.kind() == ErrorKind::BrokenPipe => ExitCode::SUCCESS,
        Err(e) => {
            eprintln!("oracle: {e}");
            ExitCode::from(2)
        }
    }
}

fn usage(why: &str) -> ExitCode {
    eprint!("oracle: {why}\n{USAGE}");
    ExitCode::from(2)
}

/// A text for each frame of the input, and one behind all; how each stands to the one exception goes to standard error.
fn print_texts(text_of: fn(&[u8]) -> (String, Exception), behind_all: &str) -> io::Result<ExitCode> {
    let input = all_input()?;
    let mut out = BufWriter::new(io::stdout().lock());
    let (mut rest, mut meshes, mut near, mut outside) = (input.as_slice(), 0u64, 0u64, 0u64);
    while !rest.is_empty() {
        let Some((bytes, behind)) = frames::first(rest) else {
            out.flush()?;
            eprintln!("oracle: frame {meshes} is cut: {} bytes are left", rest.len());
            return Ok(ExitCode::from(2));
        };
        let (text, exception) = text_of(bytes);
        out.write_all(text.as_bytes())?;
        match exception {
            Exception::Apart => {}
            Exception::Near { changed } => {
                near += 1;
                let word = if changed { "powf answers otherwise" } else { "powf answers the same" };
                eprintln!("oracle: mesh {meshes} is near the one exception: {word}");
            }
            Exception::Outside => {
                outside += 1;
                eprintln!("oracle: mesh {meshes}: powf answers otherwise, and it is not near the one exception");
            }
        }
        (rest, meshes) = (behind, meshes + 1);
    }
    out.write_all(behind_all.as_bytes())?;
    out.flush()?;
    eprintln!("oracle: {meshes} meshes, {near} near the one exception, {outside} against document 01");
    Ok(if outside == 0 { ExitCode::SUCCESS } else { ExitCode::FAILURE })
}

fn all_input() -> io::Result<Vec<u8>> {
    let mut input = Vec::new();
    io::stdin().lock().read_to_end(&mut input)?;
    Ok(input)
}

fn print_answer(text_of: fn(&[u8]) -> (String, Exception)) -> io::Result<ExitCode> {
    let (text, _) = text_of(&all_input()?);
    write_out(text.as_bytes())
}

fn write_out(bytes: &[u8]) -> io::Result<ExitCode> {
    let mut out = io::stdout().lock();
    out.write_all(bytes)?;
    out.flush()?;
    Ok(ExitCode::SUCCESS)
}

fn workers() -> Option<usize> {
    match std::env::var("MOWFROST_WORKERS") {
        Ok(number) => number.parse().ok().filter(|&workers| workers > 0),
        Err(_) => Some(2),
    }
}

fn run_program(task: &Task, n: u64, bin: &[&str], workers: usize) -> io::Result<ExitCode> {
    let count = compare(&Program::new(bin, LIMIT)?, task, n, workers)?;
    let mut out = io::stdout().lock();
    for (what, times) in count.reach.counts() {
        writeln!(out, "{times:>9} {what}")?;
    }
    writeln!(out, "{} near the one exception, compared by document 01's exact form", count.near)?;
    for number in &count.otherwise {
        writeln!(out, "  file {number} of seed {}: powf answers otherwise", sent::SEED)?;
    }
    for (_, line) in &count.shown {
        writeln!(out, "  {line}")?;
    }
    writeln!(out, "{} agree, {} differ", count.agree, count.differ)?;
    Ok(if count.differ == 0 { ExitCode::SUCCESS } else { ExitCode::FAILURE })
}

/// What the program of a command is for.
fn task(command: &str) -> &'static Task {
    if command.ends_with("-stl") {
        &MOUNTS
    } else {
        &MESHES
    }
}

fn write_stored(all: Vec<Stored>) -> io::Result<ExitCode> {
    let mut bytes = Vec::new();
    all.iter().for_each(|stored| frames::push(&mut bytes, &stored.bytes));
    write_out(&bytes)
}

fn print_stored(all: Vec<Stored>) -> io::Result<ExitCode> {
    let mut out = BufWriter::new(io::stdout().lock());
    for (number, stored) in all.iter().enumerate() {
        writeln!(out, "{number:>3} {:>5} bytes: {}", stored.bytes.len(), stored.name)?;
    }
    out.flush()?;
    Ok(ExitCode::SUCCESS)
}

fn write_meshes(seed: u64, count: u64) -> io::Result<ExitCode> {
    let mut out = BufWriter::new(io::stdout().lock());
    let mut framed = Vec::new();
    for i in 0..count {
        framed.clear();
        frames::push(&mut framed, &kinds::mesh(seed, i));
        out.write_all(&framed)?;
    }
    out.flush()?;
    Ok(ExitCode::SUCCESS)
}

fn print_kinds(names: impl Iterator<Item = &'static str>) -> io::Result<ExitCode> {
    let mut out = io::stdout().lock();
    for name in names {
        writeln!(out, "{name}")?;
    }
    Ok(ExitCode::SUCCESS)
}

fn print_reach(seed: u64, count: u64) -> io::Result<ExitCode> {
    let reach = Reach::of((0..count).map(|i| kinds::mesh(seed, i)));
    let mut out = io::stdout().lock();
    for (what, times) in reach.counts() {
        writeln!(out, "{times:>9} {what}")?;
    }
    Ok(ExitCode::SUCCESS)
}
