
/// Reaches the private routines of this file. Appended by the oracle's build script; not part of the original.
pub mod probe {
    use super::*;

    /// (boundary-free, over-incident)
    pub fn edge_chain(indices: &[u32]) -> (bool, bool) {
        let chain = EdgeChain::of(indices);
        (chain.boundary_free, chain.over_incident)
    }

    /// (the largest magnitude of a face sum, all sums are 0)
    pub fn face_net(indices: &[u32]) -> (i32, bool) {
        let net = FaceNet::of(indices);
        (net.max_abs, net.all_cancel)
    }

    pub fn is_closed_manifold(indices: &[u32]) -> bool {
        super::is_closed_manifold(indices)
    }

    pub fn winding_coherent(indices: &[u32]) -> bool {
        super::winding_coherent(indices)
    }

    pub fn welded_indices(vertices: &[f32], indices: &[u32], eps: f32) -> Vec<u32> {
        super::welded_indices(vertices, indices, eps)
    }

    /// `axes` are u and v; `u` and `v` the box's least and greatest there.
    pub fn footprint_raw(vertices: &[f32], indices: &[u32], axes: [usize; 2], u: [f32; 2], v: [f32; 2]) -> f32 {
        super::footprint_raw(vertices, indices, axes[0], axes[1], u[0], u[1], v[0], v[1])
    }

    pub fn point_in_triangle(p: [f32; 2], a: [f32; 2], b: [f32; 2], c: [f32; 2]) -> bool {
        super::point_in_triangle(p[0], p[1], a[0], a[1], b[0], b[1], c[0], c[1])
    }

    pub fn classify_mesh_quality(vertices: &[f32], indices: &[u32], unit: f32, volume: f32, aabb: f32) -> &'static str {
        super::classify_mesh_quality(vertices, indices, unit, volume, aabb)
    }
}
