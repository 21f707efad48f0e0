//! The listing (01, 'The program `takeoff`', and 02, A1): what the program prints for a file, which names edition 1 (02, A6).

use crate::file::{self, MeshFile};
use crate::mesh::qto::probe;
use crate::meshfile;
use crate::pieces::pieces;
use crate::record::{compute, compute_under, Answer, Exception, Lent, Record};
use std::fmt::Write;

/// The edition that `replay` names to be refused.
const UNKNOWN: u32 = 3;

/// The text for one file, and how it stands to the one exception.
pub fn listing(bytes: &[u8]) -> (String, Exception) {
    listed(file::read(bytes))
}

/// The same for what was read from a file of any format: its mesh, or the refusal.
pub fn listed(read: Result<MeshFile, u32>) -> (String, Exception) {
    let mesh = match read {
        Ok(mesh) => mesh,
        Err(refusal) => return (refused(refusal), Exception::Apart),
    };
    match compute(&mesh, Lent::exactly(mesh.vertices.len(), mesh.ids.len())) {
        Answer::Refused(refusal) => (refused(refusal), Exception::Apart),
        Answer::Record(record, exception) => (text(&record, pieces(&mesh.ids)), exception),
    }
}

/// The text that `replay` has to print for a file: its listing, and where the file could be read, also with a refusal of
/// the mesh, a line with what the routines on ids answer, the refusals of the same mesh with one work word less under edition 1 and under
/// one that is not known, and where there is a record the cells beside it and the areas by slope under edition 2; then a line with how
/// the file is written back.
pub fn replayed(bytes: &[u8]) -> (String, Exception) {
    let (mut text, exception) = listing(bytes);
    if let Ok(mesh) = file::read(bytes) {
        let (short, unknown) = (one_word_short(&mesh, 1), one_word_short(&mesh, UNKNOWN));
        let record = format!("{}{}", footprints(&mesh), second(&mesh));
        text += &format!("{} short {short} unknown {unknown}{record}\n", routines(&mesh.ids));
        text += &meshfile::replayed::line(bytes);
    }
    (text, exception)
}

/// Covered and rim cells of the z, y and x footprints; nothing of a mesh that is refused.
fn footprints(mesh: &MeshFile) -> String {
    match compute(mesh, Lent::exactly(mesh.vertices.len(), mesh.ids.len())) {
        Answer::Refused(_) => String::new(),
        Answer::Record(record, _) => {
            let [z, y, x] = record.cells.map(|cells| format!("{} {}", cells.covered, cells.rim));
            format!(" pairs {z} {y} {x}")
        }
    }
}

/// Top, bottom, side and inclined under edition 2, as bits in decimal; nothing of a mesh that is refused.
fn second(mesh: &MeshFile) -> String {
    match compute_under(mesh, 2, Lent::exactly(mesh.vertices.len(), mesh.ids.len())) {
        Answer::Refused(_) => String::new(),
        Answer::Record(record, _) => {
            let [top, bottom, side, inclined] = record.slopes().map(f32::to_bits);
            format!(" second {top} {bottom} {side} {inclined}")
        }
    }
}

/// 0 for a record: the zero record asks for no words, and for no edition.
fn one_word_short(mesh: &MeshFile, edition: u32) -> u32 {
    let exact = Lent::exactly(mesh.vertices.len(), mesh.ids.len());
    match compute_under(mesh, edition, Lent { work: exact.work.saturating_sub(1), ..exact }) {
        Answer::Refused(refusal) => refusal,
        Answer::Record(..) => 0,
    }
}

/// Yes is 1 and no is 0; the largest face sum is decimal.
fn routines(ids: &[u32]) -> String {
    let (boundary_free, over_incident) = probe::edge_chain(ids);
    let (largest, all_cancel) = probe::face_net(ids);
    let (manifold, winding) = (probe::is_closed_manifold(ids), probe::winding_coherent(ids));
    let [b, o, z, m, w] = [boundary_free, over_incident, all_cancel, manifold, winding].map(u32::from);
    format!("chain {b} {o} net {largest} {z} manifold {m} winding {w}")
}

fn refused(refusal: u32) -> String {
    format!("refused {refusal}\n")
}

/// f32 numbers as their bits, counts in decimal.
pub fn text(record: &Record, pieces: u32) -> String {
    let mut out = String::new();
    let mut line = |name: &str, value: &str| {
        writeln!(out, "{name} {value}").expect("a String takes all");
    };
    line("quality", record.quality);
    line("reliable", if record.reliable { "1" } else { "0" });
    line("method", record.method);
    line("profile", record.profile.unwrap_or("none"));
    line("volume", &hex(record.volume));
    line("aabb", &hex(record.aabb));
    line("surface", &hex(record.surface));
    line("top", &hex(record.top));
    line("bottom", &hex(record.bottom));
    line("side", &hex(record.side));
    line("inclined", &hex(record.inclined));
    line("largest", &hex(record.largest));
    line("smallest", &hex(record.smallest));
    line("best", &hex(record.best));
    line("prism", &record.prism.map_or("none".to_string(), hex));
    line("pieces", &pieces.to_string());
    line("used", &record.counts.used.to_string());
    line("range", &record.counts.range.to_string());
    line("sliver", &record.counts.sliver.to_string());
    line("surfaces", &record.rows.len().to_string());
    for row in &record.rows {
        line(&hex(row[0]), &format!("{} {} {}", hex(row[1]), hex(row[2]), hex(row[3])));
    }
    out
}

fn hex(x: f32) -> String {
    format!("{:08x}", x.to_bits())
}
