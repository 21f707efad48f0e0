//! Each id routine: the port's, how many words it needs, and what it should answer.

use super::capi;
use crate::mesh::qto::probe;
use crate::pieces::pieces;

pub const MOST_IDS: usize = 98_304;

const REFUSED: u32 = 0x8000_0000;

pub struct Routine {
    pub name: &'static str,
    pub port: fn(&[u32], &mut [u32]) -> u32,
    /// The words that so many ids need.
    pub needed: fn(usize) -> usize,
    /// The answer's number, by the original or, for pieces, by a plain reference.
    pub rust: fn(&[u32]) -> u32,
}

pub const ROUTINES: [Routine; 5] = [
    Routine { name: "edge_chain", port: capi::mf_edge_chain, needed: for_edges, rust: edge_chain },
    Routine { name: "face_net", port: capi::mf_face_net, needed: for_faces, rust: face_net },
    Routine {
        name: "is_closed_manifold",
        port: capi::mf_is_closed_manifold,
        needed: for_edges,
        rust: |ids| probe::is_closed_manifold(ids) as u32,
    },
    Routine {
        name: "winding_coherent",
        port: capi::mf_winding_coherent,
        needed: for_edges,
        rust: |ids| probe::winding_coherent(ids) as u32,
    },
    Routine { name: "pieces", port: capi::mf_pieces, needed: |ids| ids / 3, rust: pieces },
];

fn for_edges(ids: usize) -> usize {
    4 * ids
}

fn for_faces(ids: usize) -> usize {
    4 * (ids / 3)
}

fn edge_chain(ids: &[u32]) -> u32 {
    let (boundary_free, over_incident) = probe::edge_chain(ids);
    boundary_free as u32 + 2 * over_incident as u32
}

fn face_net(ids: &[u32]) -> u32 {
    let (max_abs, all_cancel) = probe::face_net(ids);
    2 * max_abs as u32 + all_cancel as u32
}

impl Routine {
    /// Document 01's refusal, as the C interface numbers it.
    pub fn refusal(&self, ids: usize, lent: usize) -> Option<u32> {
        if ids > MOST_IDS {
            Some(REFUSED | 1)
        } else if lent < (self.needed)(ids) {
            Some(REFUSED | 3)
        } else {
            None
        }
    }
}
