//! The runs that need the port's static libraries.

use mowfrost_oracle::linked::MISSING;
use std::io;
use std::process::ExitCode;

pub enum Run {
    Floats(u64),
    FloatsAll,
    Ids(u64),
    Weld(u64),
    Raster(u64),
    Compute(u64),
    Moves(u64),
    Glove(u64),
    Stl(u64),
    MeshFile(u64, u64),
    Repeat(String, String, usize, usize),
    Speed,
    SpeedFloats,
    SpeedIds,
    SpeedWeld,
    SpeedRaster,
    SpeedCompute,
    SpeedStl,
    SpeedMeshFile,
}

pub fn run(run: Run) -> io::Result<ExitCode> {
    if !cfg!(port) {
        eprintln!("oracle: {MISSING}");
        return Ok(ExitCode::from(2));
    }
    match run {
        Run::Floats(n) => linked::floats(n),
        Run::FloatsAll => linked::floats_all(),
        Run::Ids(n) => linked::ids(n),
        Run::Weld(n) => linked::weld(n),
        Run::Raster(n) => linked::raster(n),
        Run::Compute(n) => linked::compute(n),
        Run::Moves(n) => linked::moves(n),
        Run::Glove(n) => linked::glove(n),
        Run::Stl(n) => linked::stl(n),
        Run::MeshFile(seed, n) => linked::mesh_file(seed, n),
        Run::Repeat(routine, on, triangles, times) => linked::repeat(&routine, &on, triangles, times),
        Run::Speed => linked::speed(),
        Run::SpeedFloats => linked::speed_floats(),
        Run::SpeedIds => linked::speed_ids(),
        Run::SpeedWeld => linked::speed_weld(),
        Run::SpeedRaster => linked::speed_raster(),
        Run::SpeedCompute => linked::speed_compute(),
        Run::SpeedStl => linked::speed_stl(),
        Run::SpeedMeshFile => linked::speed_mesh_file(),
    }
}

mod linked {
    use mowfrost_oracle::compute::speed::Row;
    use mowfrost_oracle::floats::compare::{on_all_32, on_chance, on_edges, Count};
    use mowfrost_oracle::floats::helpers::{Width, HELPERS};
    use mowfrost_oracle::{compute, floats, glove, ids, meshfile, moves, pairs, raster, speed, stl, weld};
    use std::io::{self, StdoutLock, Write};
    use std::process::ExitCode;

    /// A line, how many agree and differ, and the first that differ.
    type Line = (String, u64, u64, Vec<String>);

    pub fn floats(n: u64) -> io::Result<ExitCode> {
        let counts = HELPERS.iter().enumerate().map(|(i, helper)| {
            let (edges, chance) = (on_edges(helper), on_chance(helper, i as u64, n));
            (helper.name, vec![("edges", edges), ("by chance", chance)])
        });
        tell(counts)
    }

    pub fn floats_all() -> io::Result<ExitCode> {
        let helpers = HELPERS.iter().filter(|helper| helper.width == Width::F32 && helper.second.is_none());
        tell(helpers.map(|helper| (helper.name, vec![("all patterns", on_all_32(helper))])))
    }

    fn tell(counts: impl Iterator<Item = (&'static str, Vec<(&'static str, Count)>)>) -> io::Result<ExitCode> {
        sum(counts.flat_map(|(name, parts)| {
            parts.into_iter().map(move |(on, Count { agree, differ, open, shown })| {
                let line =
                    format!("{name:<12} {on:<12} {agree:>11} agree, {differ} differ ({open} that Rust leaves open)");
                (line, agree, differ, shown)
            })
        }))
    }

    pub fn ids(n: u64) -> io::Result<ExitCode> {
        sum(ids::compare::all(n)
            .flat_map(|(name, parts)| parts.into_iter().map(move |(on, count)| listed(name, on, count))))
    }

    fn listed(name: &str, on: &str, count: ids::compare::Count) -> Line {
        let ids::compare::Count { agree, differ, refused, answered: [none, one, two, three, more], shown } = count;
        let line = format!(
            "{name:<18} {on:<9} {agree:>9} agree, {differ} differ ({refused} refused, {none} answer 0, {one} 1, \
             {two} 2, {three} 3, {more} more)"
        );
        (line, agree, differ, shown)
    }

    pub fn weld(n: u64) -> io::Result<ExitCode> {
        use weld::compare::{on_chance, on_epsilon, on_large, Count, PORT};
        let counts = [("large", on_large(PORT)), ("by chance", on_chance(PORT, n)), ("epsilon", on_epsilon(n))];
        sum(counts.into_iter().map(|(on, Count { agree, differ, welded, unchanged, untaken, shown })| -> Line {
            let line = format!(
                "{on:<9} {agree:>9} agree, {differ} differ ({welded} with some id changed, {unchanged} with none, {untaken} \
                 not taken)"
            );
            (line, agree, differ, shown)
        }))
    }

    pub fn raster(n: u64) -> io::Result<ExitCode> {
        use raster::compare::{on_chance, on_large, on_points, Count, Points, POINT_TEST, PORT};
        let Points { agree, differ, places: [outside, edge, inside], outside_with_zero, nan, shown } =
            on_points(POINT_TEST, n);
        let line = format!(
            "points    {agree:>9} agree, {differ} differ ({outside} outside, {outside_with_zero} of them with a zero, {edge} on the \
             edge, {inside} inside, {nan} of these two with a NaN)"
        );
        let counts = [("large", on_large(PORT)), ("by chance", on_chance(PORT, n))];
        let scenes = counts.into_iter().map(|(on, count)| -> Line {
            let Count { agree, differ, nothing, some, nan, untaken, told, met, shown } = count;
            let line = format!(
                "{on:<9} {agree:>9} agree, {differ} differ ({nothing} answer 0, {some} more, {nan} not a number, {untaken} not \
                 taken; in {told} the original's area tells its count; {})",
                met.told()
            );
            (line, agree, differ, shown)
        });
        sum([(line, agree, differ, shown)].into_iter().chain(scenes))
    }

    /// A line a kind, one for all kinds, the NaNs that stayed, what the counts and the cells were of, what came under each edition, then
    /// the sums.
    pub fn compute(n: u64) -> io::Result<ExitCode> {
        use compute::compare::{all, Count, PORT};
        let line = |on: &str, count: &Count| reached(on, count.agree, count.differ, &count.reached());
        let (mut out, mut sums) = (io::stdout().lock(), Count::default());
        for (on, count) in all(PORT, n) {
            show(&mut out, &line(on, &count), &[&count.shown[..], &count.noted].concat())?;
            sums.join(&count);
        }
        let told = [&[sums.stayed.told()][..], &sums.counted.told(), &sums.editions.told()].concat();
        show(&mut out, &line("all kinds", &sums), &told)?;
        end(&mut out, sums.agree, sums.differ)
    }

    /// As for `compute`.
    pub fn moves(n: u64) -> io::Result<ExitCode> {
        use pairs::Count;
        let line = |on: &str, count: &Count| reached(on, count.agree, count.differ, &count.reached(&[]));
        let (mut out, mut all) = (io::stdout().lock(), Count::default());
        for (on, count) in moves::compare::on_chance(compute::compare::PORT, n) {
            show(&mut out, &line(on, &count), &count.shown)?;
            all.join(&count);
        }
        let met = format!("counts, the same in both places: pairs with a full record {}", all.met.told());
        show(&mut out, &line("all kinds", &all), &[all.stayed.told(), met])?;
        end(&mut out, all.agree, all.differ)
    }

    /// As for `compute`, then a line for each id routine.
    pub fn glove(n: u64) -> io::Result<ExitCode> {
        use glove::compare::{all, Count};
        let line = |on: &str, count: &Count| reached(on, count.pairs.agree, count.pairs.differ, &count.reached());
        let (mut out, mut sums) = (io::stdout().lock(), Count::default());
        for (on, count) in all(compute::compare::PORT, n) {
            show(&mut out, &line(on, &count), &count.pairs.shown)?;
            sums.join(&count);
        }
        let pairs::Count { mut agree, mut differ, stayed, met, .. } = &sums.pairs;
        let met = format!("counts, the same both ways round: pairs with a full record {}", met.told());
        show(&mut out, &line("all kinds", &sums), &[stayed.told(), met])?;
        for (name, count) in glove::ids::on_all(&ids::routines::ROUTINES, n) {
            let (line, a, d, shown) = listed(name, "all kinds", count);
            show(&mut out, &line, &shown)?;
            (agree, differ) = (agree + a, differ + d);
        }
        end(&mut out, agree, differ)
    }

    /// A line a kind, one for all kinds, what the files had and the records were held to, then the sums.
    pub fn stl(n: u64) -> io::Result<ExitCode> {
        use stl::compare::{all, Count, PORT};
        let line = |on: &str, count: &Count| {
            let [agree, differ] = count.sums();
            reached(on, agree, differ, &count.reached())
        };
        let (mut out, mut sums) = (io::stdout().lock(), Count::default());
        for (on, count) in all(PORT, n) {
            let records = &count.records;
            show(&mut out, &line(on, &count), &[&count.shown[..], &records.shown, &records.noted].concat())?;
            sums.join(&count);
        }
        show(&mut out, &line("all kinds", &sums), &sums.told())?;
        let [agree, differ] = sums.sums();
        end(&mut out, agree, differ)
    }

    /// A line a part and one for all, what was reached, then the sums.
    pub fn mesh_file(seed: u64, n: u64) -> io::Result<ExitCode> {
        use meshfile::compare::{all, PORT};
        use meshfile::count::Count;
        let line = |on: &str, count: &Count| reached(on, count.agree, count.differ, &count.reached());
        let (mut out, mut sums) = (io::stdout().lock(), Count::default());
        for (on, count) in all(PORT, seed, n) {
            show(&mut out, &line(on, &count), &count.shown)?;
            sums.join(&count);
        }
        show(&mut out, &line("all parts", &sums), &sums.told())?;
        end(&mut out, sums.agree, sums.differ)
    }

    fn reached(on: &str, agree: u64, differ: u64, reached: &str) -> String {
        format!("{on:<18} {agree:>8} agree, {differ} differ ({reached})")
    }

    /// Prints each line with what it shows, then the sums.
    fn sum(lines: impl Iterator<Item = Line>) -> io::Result<ExitCode> {
        let mut out = io::stdout().lock();
        let (mut agree, mut differ) = (0, 0);
        for (line, a, d, shown) in lines {
            show(&mut out, &line, &shown)?;
            (agree, differ) = (agree + a, differ + d);
        }
        end(&mut out, agree, differ)
    }

    fn show(out: &mut StdoutLock, line: &str, shown: &[String]) -> io::Result<()> {
        writeln!(out, "{line}")?;
        shown.iter().try_for_each(|line| writeln!(out, "  {line}"))
    }

    fn end(out: &mut StdoutLock, agree: u64, differ: u64) -> io::Result<ExitCode> {
        writeln!(out, "{agree} agree, {differ} differ")?;
        Ok(if differ == 0 { ExitCode::SUCCESS } else { ExitCode::FAILURE })
    }

    pub fn repeat(routine: &str, on: &str, triangles: usize, times: usize) -> io::Result<ExitCode> {
        match speed::repeat(routine, on, triangles, times) {
            Some(n) => println!("{routine} on {on}, {n} triangles, {times} times"),
            None => {
                eprintln!("oracle: no routine {routine}, or no mesh {on} for it");
                return Ok(ExitCode::from(2));
            }
        }
        Ok(ExitCode::SUCCESS)
    }

    /// Each row with its bound, and a star where it is above it.
    pub fn speed() -> io::Result<ExitCode> {
        let star = |above: bool| if above { " *" } else { "" };
        let mut out = io::stdout().lock();
        writeln!(
            out,
            "| routine | on | triangles | port, µs | Rust, µs | ratio | at most |\n|---|---|---|---|---|---|---|"
        )?;
        for row in speed::records().chain(speed::lists()) {
            let (ratio, above) = (row.port / row.rust, row.port > row.most * row.rust);
            let (routine, on, size, port, rust) = (row.routine, &row.on, row.size, 1e6 * row.port, 1e6 * row.rust);
            let bound = format!("{}{}", row.most, star(above));
            writeln!(out, "| `{routine}` | {on} | {size} | {port:.2} | {rust:.2} | {ratio:.2} | {bound} |")?;
        }
        writeln!(
            out,
            "\n| routine | on | n, µs | 2n, µs | 4n, µs | twice the size | at most |\n|---|---|---|---|---|---|---|"
        )?;
        for row in speed::growth() {
            let [one, two, four] = row.port.map(|t| 1e6 * t);
            let bound = format!("{}{}", speed::GROWTH, star(row.step() > speed::GROWTH));
            let (routine, on, step) = (row.routine, row.on, row.step());
            writeln!(out, "| `{routine}` | {on} | {one:.0} | {two:.0} | {four:.0} | {step:.2} | {bound} |")?;
        }
        Ok(ExitCode::SUCCESS)
    }

    pub fn speed_floats() -> io::Result<ExitCode> {
        let mut out = io::stdout().lock();
        writeln!(out, "| helper | on | port, ns | Rust, ns | ratio |\n|---|---|---|---|---|")?;
        for row in floats::speed::rows() {
            let ratio = row.port / row.rust;
            writeln!(out, "| `{}` | {} | {:.1} | {:.1} | {ratio:.1} |", row.name, row.on, row.port, row.rust)?;
        }
        Ok(ExitCode::SUCCESS)
    }

    pub fn speed_ids() -> io::Result<ExitCode> {
        let mut out = io::stdout().lock();
        writeln!(out, "| routine | list | ids | port, ms | Rust, ms | ratio |\n|---|---|---|---|---|---|")?;
        for row in ids::speed::rows().iter().chain(&ids::speed::worst()) {
            let ratio = row.port / row.rust;
            let (name, on, ids) = (row.name, &row.on, row.ids);
            writeln!(out, "| `{name}` | {on} | {ids} | {:.3} | {:.3} | {ratio:.2} |", row.port, row.rust)?;
        }
        Ok(ExitCode::SUCCESS)
    }

    pub fn speed_weld() -> io::Result<ExitCode> {
        let rows = weld::speed::rows();
        race("vertices", rows.iter().map(|row| (row.on.as_str(), row.vertices, row.port, row.rust)))
    }

    pub fn speed_raster() -> io::Result<ExitCode> {
        let mut out = io::stdout().lock();
        writeln!(out, "| mesh | triangles | port, ms | Rust, ms | ratio | Rust with rim, ms | ratio |")?;
        writeln!(out, "|---|---|---|---|---|---|---|")?;
        for raster::speed::Row { on, triangles, port, rust, rim } in raster::speed::rows() {
            let (alone, with) = (port / rust, port / rim);
            writeln!(out, "| {on} | {triangles} | {port:.3} | {rust:.3} | {alone:.2} | {rim:.3} | {with:.2} |")?;
        }
        Ok(ExitCode::SUCCESS)
    }

    pub fn speed_stl() -> io::Result<ExitCode> {
        let mut out = io::stdout().lock();
        writeln!(out, "| routine | triangles | port, µs | Rust, µs | ratio |\n|---|---|---|---|---|")?;
        for stl::speed::Row { routine, triangles, port, rust } in stl::speed::rows() {
            let ratio = port / rust;
            writeln!(out, "| `{routine}` | {triangles} | {:.3} | {:.3} | {ratio:.2} |", 1e6 * port, 1e6 * rust)?;
        }
        Ok(ExitCode::SUCCESS)
    }

    pub fn speed_mesh_file() -> io::Result<ExitCode> {
        let mut out = io::stdout().lock();
        writeln!(out, "| routine | floats | ids | port, µs | new vectors, µs | ratio | same slices, µs | ratio |")?;
        writeln!(out, "|---|---|---|---|---|---|---|---|")?;
        for meshfile::speed::Row { routine, floats, ids, port, vectors, slices } in meshfile::speed::rows() {
            let [port, vectors, slices] = [port, vectors, slices].map(|seconds| 1e6 * seconds);
            let (made, filled) = (port / vectors, port / slices);
            write!(out, "| `{routine}` | {floats} | {ids} | {port:.3} | {vectors:.3} | {made:.2} ")?;
            writeln!(out, "| {slices:.3} | {filled:.2} |")?;
        }
        Ok(ExitCode::SUCCESS)
    }

    pub fn speed_compute() -> io::Result<ExitCode> {
        records("mesh", "ms", 1e3, 3, compute::speed::rows())?;
        println!();
        records("small mesh", "ns", 1e9, 0, compute::speed::small())
    }

    /// Under edition 1 the original alone, and with the plain counts behind it; under edition 2 the original with two numbers changed;
    /// and the port's 2 to its 1.
    fn records(of: &str, unit: &str, by: f64, digits: usize, rows: impl Iterator<Item = Row>) -> io::Result<ExitCode> {
        let mut out = io::stdout().lock();
        write!(out, "| {of} | triangles | port, {unit} | Rust, {unit} | ratio | Rust, then counts, {unit} | ratio ")?;
        writeln!(out, "| edition 2, {unit} | Rust with its thresholds, {unit} | ratio | 2 to 1 |")?;
        writeln!(out, "|---|---|---|---|---|---|---|---|---|---|---|")?;
        for row in rows {
            let ([port, second], [rust, changed], counted) = (row.port, row.rust, row.rust[0] + row.counts);
            let told = |seconds: f64| format!("{:.digits$}", by * seconds);
            write!(out, "| {} | {} | {} ", row.on, row.triangles, told(port))?;
            write!(out, "| {} | {:.2} | {} | {:.2} ", told(rust), port / rust, told(counted), port / counted)?;
            write!(out, "| {} | {} | {:.2} ", told(second), told(changed), second / changed)?;
            writeln!(out, "| {:.3} |", second / port)?;
        }
        Ok(ExitCode::SUCCESS)
    }

    fn race<'a>(of: &str, rows: impl Iterator<Item = (&'a str, usize, f64, f64)>) -> io::Result<ExitCode> {
        let mut out = io::stdout().lock();
        writeln!(out, "| mesh | {of} | port, ms | Rust, ms | ratio |\n|---|---|---|---|---|")?;
        for (on, count, port, rust) in rows {
            writeln!(out, "| {on} | {count} | {port:.3} | {rust:.3} | {:.2} |", port / rust)?;
        }
        Ok(ExitCode::SUCCESS)
    }
}
