//! The archive's functions that a station calls. Nothing checks these declarations against the Rattle source: compare them with
//! include/bivelondry.h when either changes. A reference to an array is a pointer that no length follows.
use crate::Scene;

/// Areas that a query is lent, and how many of them are work areas; the last is the output.
pub const AREAS: usize = 20;
pub const WORK: usize = AREAS - 1;

/// Settings that are whole numbers, and those that are floats.
pub const COUNTS: usize = 14;
pub const FLOATS: usize = 12;

/// Words of a tap: order, number, direction, delay, gains.
pub const TAP_WORDS: usize = 14;

/// Planes of a sequence, at most.
pub const ORDERS: usize = 8;

/// Planes of a scene, at most.
pub const PLANES: usize = 256;

/// Floats of a plane in its work area: normal, offset, box, spread, area.
pub const PLANE_FLOATS: usize = 12;

/// The work area that the planes' floats stand in.
pub const PLANE_AREA: usize = 16;

extern "C" {
    pub fn biv_area_lengths(triples: usize, c: u32, lens: &mut [usize; AREAS]) -> bool;
    pub fn biv_speed_of_sound(temperature_celsius: f32) -> f32;
    #[rustfmt::skip]
    pub fn biv_query_cost(
        crossing_limit: u32, planes: u32, first: u32, order: u32, triples: u32, counts: &mut [u32; ORDERS], found: &mut [u64; 3],
    ) -> u32;
    pub fn biv_packet_read(bytes: *const u8, bytes_len: usize, taps: *mut u32, taps_len: usize, found: &mut [usize; 3]) -> u32;
    #[rustfmt::skip]
    pub fn biv_packet_write(
        count: usize, images: u32, rays: u32, taps: *const u32, taps_len: usize, out: *mut u8, out_len: usize, found: &mut [usize; 1],
    ) -> u32;
    #[rustfmt::skip]
    pub fn biv_walls(
        planes: u32, order: u32, on: *const u8, on_len: usize, number: u32, walls: &mut [u8; ORDERS], found: &mut [usize; 1],
    ) -> u32;
    #[rustfmt::skip]
    pub fn biv_planes(
        triangles: *mut f32, triangles_len: usize, handles: *mut u32, handles_len: usize, tree: *mut f32, tree_len: usize,
        nodes: *mut u32, nodes_len: usize, leaf_order: *mut u32, leaf_order_len: usize, keys: *mut u64, keys_len: usize, low_keys: *mut u64, low_keys_len: usize,
        words: *mut u64, words_len: usize, scratch: *mut u64, scratch_len: usize, index: *mut u32, index_len: usize,
        numbers: *mut u32, numbers_len: usize, adjacency: *mut u32, adjacency_len: usize, queue: *mut u32, queue_len: usize, offsets: *mut u32, offsets_len: usize,
        floats: *mut f32, floats_len: usize, plane_triangles: *mut u32, plane_triangles_len: usize, plane_floats: *mut f32, plane_floats_len: usize,
        plane_words: *mut u32, plane_words_len: usize, plane_edges: *mut f32, plane_edges_len: usize, on: &mut [u8; PLANES],
        found: &mut [usize; 1], counts: &[u32; COUNTS],
        setting_floats: &[f32; FLOATS], c: u32, meshes: *const u32, meshes_len: usize,
        transforms: *const f32, transforms_len: usize, positions: *const f32, positions_len: usize,
        indices: *const u32, indices_len: usize, materials: *const f32, materials_len: usize, rows_count: u32,
        source: &[f32; 3],
    ) -> u32;
    #[rustfmt::skip]
    pub fn biv_trace_early_reflections(
        triangles: *mut f32, triangles_len: usize, handles: *mut u32, handles_len: usize, tree: *mut f32, tree_len: usize,
        nodes: *mut u32, nodes_len: usize, leaf_order: *mut u32, leaf_order_len: usize, keys: *mut u64, keys_len: usize, low_keys: *mut u64, low_keys_len: usize,
        words: *mut u64, words_len: usize, scratch: *mut u64, scratch_len: usize, index: *mut u32, index_len: usize,
        numbers: *mut u32, numbers_len: usize, adjacency: *mut u32, adjacency_len: usize, queue: *mut u32, queue_len: usize, offsets: *mut u32, offsets_len: usize,
        floats: *mut f32, floats_len: usize, plane_triangles: *mut u32, plane_triangles_len: usize, plane_floats: *mut f32, plane_floats_len: usize,
        plane_words: *mut u32, plane_words_len: usize, plane_edges: *mut f32, plane_edges_len: usize, out: *mut u8, out_len: usize,
        found: &mut [usize; 4], counts: &[u32; COUNTS],
        setting_floats: &[f32; FLOATS], c: u32, meshes: *const u32, meshes_len: usize,
        transforms: *const f32, transforms_len: usize, positions: *const f32, positions_len: usize,
        indices: *const u32, indices_len: usize, materials: *const f32, materials_len: usize, rows_count: u32,
        source: &[f32; 3], listener: &[f32; 3], separated: bool,
    ) -> u32;
}

/// The query, with area i at `at(i)`.
///
/// # Safety
/// The areas have their lengths, are aligned to 8 bytes, and do not overlap; `out` has `out_len` bytes.
#[rustfmt::skip]
#[allow(clippy::too_many_arguments)]
pub unsafe fn trace(
    at: impl Fn(usize) -> (*mut u64, usize), out: *mut u8, out_len: usize, found: &mut [usize; 4], counts: &[u32; COUNTS], floats: &[f32; FLOATS], c: u32,
    s: &Scene, source: &[f32; 3], listener: &[f32; 3], separated: bool,
) -> u32 {
    let (f, w) = (|i| at(i).0.cast::<f32>(), |i| at(i).0.cast::<u32>());
    let n = |i| at(i).1;
    biv_trace_early_reflections(
        f(0), n(0), w(1), n(1), f(2), n(2), w(3), n(3), w(4), n(4), at(5).0, n(5), at(6).0, n(6), at(7).0, n(7), at(8).0, n(8), w(9), n(9),
        w(10), n(10), w(11), n(11), w(12), n(12), w(13), n(13), f(14), n(14), w(15), n(15), f(16), n(16), w(17), n(17), f(18), n(18),
        out, out_len, found, counts,
        floats, c, s.meshes.as_ptr(), s.meshes.len(), s.transforms.as_ptr(), s.transforms.len(),
        s.positions.as_ptr(), s.positions.len(), s.indices.as_ptr(), s.indices.len(), s.materials.as_ptr(), s.materials.len(), s.rows,
        source, listener, separated,
    )
}

/// The planes of a scene, with area i at `at(i)`.
///
/// # Safety
/// The areas have their lengths, are aligned to 8 bytes, and do not overlap.
#[rustfmt::skip]
#[allow(clippy::too_many_arguments)]
pub unsafe fn planes(
    at: impl Fn(usize) -> (*mut u64, usize), on: &mut [u8; PLANES], found: &mut [usize; 1], counts: &[u32; COUNTS], floats: &[f32; FLOATS], c: u32,
    s: &Scene, source: &[f32; 3],
) -> u32 {
    let (f, w) = (|i| at(i).0.cast::<f32>(), |i| at(i).0.cast::<u32>());
    let n = |i| at(i).1;
    biv_planes(
        f(0), n(0), w(1), n(1), f(2), n(2), w(3), n(3), w(4), n(4), at(5).0, n(5), at(6).0, n(6), at(7).0, n(7), at(8).0, n(8), w(9), n(9),
        w(10), n(10), w(11), n(11), w(12), n(12), w(13), n(13), f(14), n(14), w(15), n(15), f(16), n(16), w(17), n(17), f(18), n(18),
        on, found, counts,
        floats, c, s.meshes.as_ptr(), s.meshes.len(), s.transforms.as_ptr(), s.transforms.len(),
        s.positions.as_ptr(), s.positions.len(), s.indices.as_ptr(), s.indices.len(), s.materials.as_ptr(), s.materials.len(), s.rows,
        source,
    )
}
