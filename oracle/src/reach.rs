//! What a run of meshes reaches: each verdict, method, refusal and branch of document 01's rules, and what A1 counts, counted. The road
//! through 'Verdict' is walked here once more, by 01's words over the original's own leaves; it must end at the
//! original's verdict.

use crate::counts::{lengths, Counts, SHORTEST};
use crate::file::{self, MeshFile};
use crate::mesh::qto::probe;
use crate::record::{compute, Answer, Exception, Lent, Record};
use std::collections::BTreeMap;

#[derive(Default)]
pub struct Reach {
    counts: BTreeMap<&'static str, u64>,
}

/// Everything that a good run of meshes reaches.
pub const WANTED: &[&str] = &[
    "refused 2",
    "refused 4",
    "refused 5",
    "refused 6",
    "zero record",
    "quality closed",
    "quality open_shell",
    "quality degenerate",
    "method mesh",
    "method mesh_open",
    "method prism_fallback",
    "method mesh_unclipped",
    "method mesh_profile_invalid",
    "profile none",
    "profile self_intersecting",
    "profile degenerate",
    "profile hole_outside",
    "profile overlapping",
    "clip with defect",
    "verdict: box without volume",
    "verdict: volume above the box",
    "verdict: given ids boundary-free",
    "verdict: welded ids boundary-free",
    "verdict: not boundary-free",
    "verdict: faces asked, over-incident",
    "verdict: faces asked, near zero",
    "verdict: face sum of 2 or more",
    "verdict: cancels",
    "verdict: face sums pass",
    "open: within the bound",
    "open: above the bound",
    "open: collapsed",
    "open: no volume",
    "open: prism 0",
    "open: prism is the upper bound",
    "open: box is the upper bound",
    "open: near the one exception",
    "id out of range",
    "repeated ids",
    "leftover ids",
    "leftover floats",
    "fewer than 9 ids",
    "volume below zero",
    "volume of -0",
    "volume of 0",
    "no surfaces",
    "more than 64 surfaces",
    "surfaces of equal area",
    "smallest is 0",
    "top",
    "bottom",
    "side",
    "inclined",
    "more than one piece",
    "no piece",
    "triangles: all used",
    "triangles: none used",
    "triangles: used, out of range and slivers",
    "triangles: out of range and slivers alone",
    "out of range: the first corner alone",
    "out of range: the second corner alone",
    "out of range: the third corner alone",
    "out of range: all corners",
    "out of range: with a repeated id",
    "sliver: a length of 0",
    "sliver: a length of 0, no id repeated",
    "sliver: a length above 0",
    "sliver: a length a step under 1e-12",
    "used: a length of 1e-12",
    "used: a length a step above 1e-12",
];

impl Reach {
    pub fn of(files: impl Iterator<Item = Vec<u8>>) -> Reach {
        let mut reach = Reach::default();
        files.for_each(|bytes| reach.count(&bytes));
        reach
    }

    pub fn join(&mut self, other: &Reach) {
        other.counts().for_each(|(what, times)| *self.counts.entry(what).or_insert(0) += times);
    }

    pub fn counts(&self) -> impl Iterator<Item = (&'static str, u64)> + '_ {
        self.counts.iter().map(|(what, times)| (*what, *times))
    }

    pub fn times(&self, what: &str) -> u64 {
        self.counts.get(what).copied().unwrap_or(0)
    }

    fn at(&mut self, what: &'static str) {
        *self.counts.entry(what).or_insert(0) += 1;
    }

    fn at_if(&mut self, holds: bool, what: &'static str) {
        if holds {
            self.at(what);
        }
    }

    pub fn count(&mut self, bytes: &[u8]) {
        self.add(file::read(bytes));
    }

    /// What was read from a file of any format: its mesh, or the refusal.
    pub fn add(&mut self, read: Result<MeshFile, u32>) {
        let mesh = match read {
            Ok(mesh) => mesh,
            Err(refusal) => return self.refused(refusal),
        };
        match compute(&mesh, Lent::exactly(mesh.vertices.len(), mesh.ids.len())) {
            Answer::Refused(refusal) => self.refused(refusal),
            Answer::Record(record, exception) => {
                self.names(&mesh, &record);
                if mesh.ids.len() < 3 || mesh.vertices.len() < 9 {
                    return self.at("zero record");
                }
                self.numbers(&record);
                self.shape(&mesh);
                self.triangles(&mesh, record.counts);
                let verdict = self.verdict(&mesh, record.volume, record.aabb);
                assert_eq!(verdict, record.quality, "document 01's road does not end at the original's verdict");
                if verdict == "open_shell" {
                    self.open(&record, exception);
                }
            }
        }
    }

    fn refused(&mut self, refusal: u32) {
        self.at(match refusal {
            1 => "refused 1",
            2 => "refused 2",
            3 => "refused 3",
            4 => "refused 4",
            5 => "refused 5",
            _ => "refused 6",
        });
    }

    fn names(&mut self, mesh: &MeshFile, record: &Record) {
        for name in WANTED {
            let named = match name.split_once(' ') {
                Some(("quality", q)) => q == record.quality,
                Some(("method", m)) => m == record.method,
                Some(("profile", p)) => p == record.profile.unwrap_or("none"),
                _ => false,
            };
            self.at_if(named, name);
        }
        self.at_if(mesh.flags.clip && mesh.flags.defect > 0, "clip with defect");
        let pieces = crate::pieces::pieces(&mesh.ids);
        self.at_if(pieces == 0, "no piece");
        self.at_if(pieces > 1, "more than one piece");
    }

    fn numbers(&mut self, record: &Record) {
        self.at_if(record.volume < 0.0, "volume below zero");
        self.at_if(record.volume.to_bits() == 0, "volume of 0");
        self.at_if(record.volume.to_bits() == 0x8000_0000, "volume of -0");
        self.at_if(record.rows.is_empty(), "no surfaces");
        self.at_if(record.rows.len() > 64, "more than 64 surfaces");
        self.at_if(record.rows.windows(2).any(|w| w[0][0] == w[1][0]), "surfaces of equal area");
        self.at_if(record.smallest == 0.0, "smallest is 0");
        self.at_if(record.top > 0.0, "top");
        self.at_if(record.bottom > 0.0, "bottom");
        self.at_if(record.side > 0.0, "side");
        self.at_if(record.inclined > 0.0, "inclined");
    }

    fn shape(&mut self, mesh: &MeshFile) {
        let whole = mesh.vertices.len() / 3;
        self.at_if(mesh.ids.chunks_exact(3).flatten().any(|&i| i as usize >= whole), "id out of range");
        self.at_if(mesh.ids.chunks_exact(3).any(|t| t[0] == t[1] || t[1] == t[2] || t[2] == t[0]), "repeated ids");
        self.at_if(!mesh.ids.len().is_multiple_of(3), "leftover ids");
        self.at_if(!mesh.vertices.len().is_multiple_of(3), "leftover floats");
        self.at_if(mesh.ids.len() < 9, "fewer than 9 ids");
    }

    /// What A1 counts: at least one triangle of each sort.
    fn triangles(&mut self, mesh: &MeshFile, Counts { used, range, sliver }: Counts) {
        self.at_if(range == 0 && sliver == 0, "triangles: all used");
        self.at_if(used == 0, "triangles: none used");
        self.at_if(used > 0 && range > 0 && sliver > 0, "triangles: used, out of range and slivers");
        self.at_if(used == 0 && range > 0 && sliver > 0, "triangles: out of range and slivers alone");
        let whole = mesh.vertices.len() / 3;
        let out: Vec<[bool; 3]> =
            mesh.ids.chunks_exact(3).map(|t| [t[0], t[1], t[2]].map(|id| id as usize >= whole)).collect();
        self.at_if(out.contains(&[true, false, false]), "out of range: the first corner alone");
        self.at_if(out.contains(&[false, true, false]), "out of range: the second corner alone");
        self.at_if(out.contains(&[false, false, true]), "out of range: the third corner alone");
        self.at_if(out.contains(&[true; 3]), "out of range: all corners");
        let repeated = |t: &[u32]| t[0] == t[1] || t[1] == t[2] || t[2] == t[0];
        let triples = || mesh.ids.chunks_exact(3).zip(lengths(&mesh.vertices, &mesh.ids));
        let mut some = |test: &dyn Fn(&[u32], Option<f64>) -> bool, what: &'static str| {
            self.at_if(triples().any(|(t, length)| test(t, length)), what);
        };
        some(&|t, length| length.is_none() && repeated(t), "out of range: with a repeated id");
        some(&|_, length| length == Some(0.0), "sliver: a length of 0");
        some(&|t, length| length == Some(0.0) && !repeated(t), "sliver: a length of 0, no id repeated");
        some(&|_, length| length.is_some_and(|x| x > 0.0 && x < SHORTEST), "sliver: a length above 0");
        some(&|_, length| length == Some(SHORTEST.next_down()), "sliver: a length a step under 1e-12");
        some(&|_, length| length == Some(SHORTEST), "used: a length of 1e-12");
        some(&|_, length| length == Some(SHORTEST.next_up()), "used: a length a step above 1e-12");
    }

    /// 'Verdict', in its order.
    fn verdict(&mut self, mesh: &MeshFile, volume: f32, aabb: f32) -> &'static str {
        if aabb <= 0.0 {
            self.at("verdict: box without volume");
            return "degenerate";
        }
        if volume.abs() > aabb * 1.001 {
            self.at("verdict: volume above the box");
            return "open_shell";
        }
        let mut ids = mesh.ids.clone();
        let mut chain = probe::edge_chain(&ids);
        if chain.0 {
            self.at("verdict: given ids boundary-free");
        } else {
            ids = probe::welded_indices(&mesh.vertices, &mesh.ids, 1e-4f32 / mesh.unit);
            chain = probe::edge_chain(&ids);
            if !chain.0 {
                self.at("verdict: not boundary-free");
                return "open_shell";
            }
            self.at("verdict: welded ids boundary-free");
        }
        let near_zero = volume.abs() <= aabb * 1e-6;
        if chain.1 || near_zero {
            self.at_if(chain.1, "verdict: faces asked, over-incident");
            self.at_if(near_zero, "verdict: faces asked, near zero");
            let (largest, all_zero) = probe::face_net(&ids);
            if largest >= 2 {
                self.at("verdict: face sum of 2 or more");
                return "open_shell";
            }
            if near_zero && all_zero {
                self.at("verdict: cancels");
                return "degenerate";
            }
            self.at("verdict: face sums pass");
        }
        "closed"
    }

    /// 'Best volume' of an open shell; the flags leave the numbers alone.
    fn open(&mut self, record: &Record, exception: Exception) {
        let (volume, prism) = (record.volume.abs(), record.prism.unwrap_or(f32::NAN));
        assert!(!prism.is_nan(), "an open shell has a bound");
        let upper = if prism > 0.0 && prism <= record.aabb { prism } else { record.aabb };
        self.at_if(prism == 0.0, "open: prism 0");
        self.at_if(prism > 0.0 && upper == prism, "open: prism is the upper bound");
        self.at_if(prism > 0.0 && upper < prism, "open: box is the upper bound");
        self.at_if(matches!(exception, Exception::Near { .. }), "open: near the one exception");
        self.at_if(exception == Exception::Outside, "against document 01: the one exception reaches further");
        let collapsed = prism >= 1e-3 && volume < upper * 1e-3 && crate::exception::cube_exceeds(record.surface, prism);
        if volume == 0.0 {
            self.at("open: no volume");
        }
        self.at(if collapsed {
            "open: collapsed"
        } else if volume > upper * 1.05 {
            "open: above the bound"
        } else {
            "open: within the bound"
        });
    }
}
