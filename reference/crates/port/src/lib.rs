//! The port as Rust sees it: the functions of crates/exports (declared in bindings/rust) and crates/stages, each behind a safe one that tests
//! what its `requires` asks. Nothing checks the declarations below against the Rattle source: compare them with
//! include/bivelondry_stages.h when either changes.

pub use bivelondry::ffi::{COUNTS, FLOATS};

mod ffi {
    pub use bivelondry::ffi::{biv_area_lengths, biv_packet_read, biv_packet_write, biv_query_cost, biv_trace_early_reflections, biv_walls};

    extern "C" {
        pub fn biv_sqrt(x: f32) -> f32;
        pub fn biv_round(x: f32) -> i64;
        pub fn biv_min(a: f32, b: f32) -> f32;
        pub fn biv_max(a: f32, b: f32) -> f32;
        pub fn biv_clamp(x: f32, low: f32, high: f32) -> f32;
        pub fn biv_abs(x: f32) -> f32;
        pub fn biv_sort_words(a: *mut u64, a_len: usize, scratch: *mut u64, scratch_len: usize);
        #[rustfmt::skip]
        pub fn biv_sort_by_key(
            keys: *const u64, keys_len: usize, index: *mut u32, index_len: usize, words: *mut u64, words_len: usize, scratch: *mut u64, scratch_len: usize,
        );
        #[rustfmt::skip]
        pub fn biv_load_scene(
            counts: *const u32, counts_len: usize, floats: *const f32, floats_len: usize, c: u32,
            meshes: *const u32, meshes_len: usize, transforms: *const f32, transforms_len: usize,
            positions: *const f32, positions_len: usize, indices: *const u32, indices_len: usize,
            materials: *const f32, materials_len: usize, rows: u32,
            lens: *const usize, lens_len: usize,
            columns: *mut f32, columns_len: usize, handles: *mut u32, handles_len: usize, found: *mut usize, found_len: usize,
        ) -> u32;
        #[rustfmt::skip]
        pub fn biv_triangles_from_scene(
            meshes: *const u32, meshes_len: usize, transforms: *const f32, transforms_len: usize,
            positions: *const f32, positions_len: usize, indices: *const u32, indices_len: usize, n: usize,
            columns: *mut f32, columns_len: usize, handles: *mut u32, handles_len: usize, found: *mut usize, found_len: usize,
        ) -> u32;
        #[rustfmt::skip]
        pub fn biv_build_flat_bvh(
            columns: *const f32, columns_len: usize, handles: *const u32, handles_len: usize, n: usize, extents: *mut f32, extents_len: usize,
            keys: *mut u64, keys_len: usize, perm: *mut u32, perm_len: usize, words: *mut u64, words_len: usize,
            scratch: *mut u64, scratch_len: usize, areas: *mut f32, areas_len: usize, boxes: *mut f32, boxes_len: usize,
            nodes: *mut u32, nodes_len: usize, tree: *mut f32, tree_len: usize,
        ) -> usize;
        #[rustfmt::skip]
        pub fn biv_intersect(
            padded: *const f32, padded_len: usize, nodes: *const u32, nodes_len: usize, perm: *const u32, perm_len: usize,
            rows: *const f32, rows_len: usize, handles: *const u32, handles_len: usize, count: usize,
            ray: *const f32, ray_len: usize, hit: *mut f32, hit_len: usize, place: *mut usize, place_len: usize,
        ) -> bool;
        #[rustfmt::skip]
        pub fn biv_build_planes(
            columns: *const f32, columns_len: usize, handles: *const u32, handles_len: usize, n: usize, m: usize,
            counts: *const u32, counts_len: usize, setting_floats: *const f32, setting_floats_len: usize,
            padded: *const f32, padded_len: usize, nodes: *const u32, nodes_len: usize, perm: *const u32, perm_len: usize,
            leaves: *const f32, leaves_len: usize, nodes_count: usize,
            hi: *mut u64, hi_len: usize, lo: *mut u64, lo_len: usize, words: *mut u64, words_len: usize, scratch: *mut u64, scratch_len: usize,
            index: *mut u32, index_len: usize, id: *mut u32, id_len: usize, linked: *mut u32, linked_len: usize,
            queue: *mut u32, queue_len: usize, starts: *mut u32, starts_len: usize,
            gfloats: *mut f32, gfloats_len: usize, members: *mut u32, members_len: usize, rows: *mut f32, rows_len: usize,
            kept: *mut u32, kept_len: usize, edges: *mut f32, edges_len: usize,
        ) -> usize;
        #[rustfmt::skip]
        pub fn biv_path(
            padded: *const f32, padded_len: usize, nodes: *const u32, nodes_len: usize, perm: *const u32, perm_len: usize,
            rows: *const f32, rows_len: usize, handles: *const u32, handles_len: usize, nodes_count: usize,
            materials: *const f32, materials_len: usize, columns: *const f32, columns_len: usize, n: usize,
            floats: *const f32, floats_len: usize, words: *const u32, words_len: usize, members: *const u32, members_len: usize,
            edges: *const f32, edges_len: usize, count: usize, counts: *const u32, counts_len: usize,
            setting_floats: *const f32, setting_floats_len: usize, seq: *const u32, seq_len: usize, source: *const f32, source_len: usize,
            listener: *const f32, listener_len: usize, found: *mut f32, found_len: usize, rays: *mut u32, rays_len: usize,
        ) -> u32;
        #[rustfmt::skip]
        pub fn biv_bounces(
            columns: *const f32, columns_len: usize, n: usize, floats: *const f32, floats_len: usize, words: *const u32, words_len: usize,
            members: *const u32, members_len: usize, edges: *const f32, edges_len: usize, count: usize, fade: f32,
            seq: *const u32, seq_len: usize, source: *const f32, source_len: usize, listener: *const f32, listener_len: usize,
            points: *mut f32, points_len: usize,
        ) -> u32;
        #[rustfmt::skip]
        pub fn biv_rank_reflections(
            fs: *const f32, fs_len: usize, ws: *const u32, ws_len: usize, n: usize, speed: f32, rate: f32, limit: usize,
            keys: *mut u64, keys_len: usize, index: *mut u32, index_len: usize, words: *mut u64, words_len: usize,
            scratch: *mut u64, scratch_len: usize, out: *mut u32, out_len: usize,
        ) -> usize;
        #[rustfmt::skip]
        pub fn biv_search_images(
            padded: *const f32, padded_len: usize, nodes: *const u32, nodes_len: usize, perm: *const u32, perm_len: usize,
            rows: *const f32, rows_len: usize, handles: *const u32, handles_len: usize, nodes_count: usize,
            materials: *const f32, materials_len: usize, columns: *const f32, columns_len: usize, n: usize,
            floats: *const f32, floats_len: usize, words: *const u32, words_len: usize, members: *const u32, members_len: usize,
            edges: *const f32, edges_len: usize, count: usize, counts: *const u32, counts_len: usize,
            setting_floats: *const f32, setting_floats_len: usize, source: *const f32, source_len: usize,
            listener: *const f32, listener_len: usize, order: usize, room: usize, fs: *mut f32, fs_len: usize, ws: *mut u32, ws_len: usize,
            found: *mut usize, found_len: usize,
        ) -> bool;
        pub fn biv_distance_gain(curve: u32, reference: f32, rolloff: f32, least: f32, greatest: f32, distance: f32) -> f32;
    }
}

// SAFETY of the functions on numbers: numbers in, a number out, no memory is touched and nothing is asked.

pub fn sqrt(x: f32) -> f32 {
    unsafe { ffi::biv_sqrt(x) }
}

/// `x.round() as i64`.
pub fn round(x: f32) -> i64 {
    unsafe { ffi::biv_round(x) }
}

pub fn min(a: f32, b: f32) -> f32 {
    unsafe { ffi::biv_min(a, b) }
}

pub fn max(a: f32, b: f32) -> f32 {
    unsafe { ffi::biv_max(a, b) }
}

pub fn clamp(x: f32, low: f32, high: f32) -> f32 {
    unsafe { ffi::biv_clamp(x, low, high) }
}

pub fn abs(x: f32) -> f32 {
    unsafe { ffi::biv_abs(x) }
}

/// `DistanceModel::gain`, for the curves Inverse and Linear.
pub fn distance_gain(linear: bool, reference: f32, rolloff: f32, least: f32, greatest: f32, distance: f32) -> f32 {
    unsafe { ffi::biv_distance_gain(linear as u32, reference, rolloff, least, greatest, distance) }
}

/// Sorts words by their upper 32 bits, stably. The scratch area is as long as the words.
pub fn sort_words(a: &mut [u64], scratch: &mut [u64]) {
    assert_eq!(a.len(), scratch.len());
    // SAFETY: the two areas are distinct and of equal length.
    unsafe { ffi::biv_sort_words(a.as_mut_ptr(), a.len(), scratch.as_mut_ptr(), scratch.len()) }
}

/// Sorts positions of `keys` by their keys, stably.
pub fn sort_by_key(keys: &[u64], index: &mut [u32], words: &mut [u64], scratch: &mut [u64]) {
    assert!(index.len() <= words.len() && index.len() <= scratch.len());
    assert!(index.iter().all(|&i| (i as usize) < keys.len()), "a position is past the keys");
    let (n, w, s) = (index.len(), words.len(), scratch.len());
    // SAFETY: as asserted; the areas are distinct.
    unsafe { ffi::biv_sort_by_key(keys.as_ptr(), keys.len(), index.as_mut_ptr(), n, words.as_mut_ptr(), w, scratch.as_mut_ptr(), s) }
}

/// Count, images and rays of a packet.
#[derive(Clone, Copy, Debug, PartialEq, Eq)]
pub struct Read {
    pub count: usize,
    pub images: u32,
    pub rays: u32,
}

/// Words of a tap area: order, number, direction, delay and gains of each of 1,024 taps.
pub const TAP_WORDS: usize = 14;
pub const TAPS: usize = 1024;

/// Reads a packet into a tap area; the error is document 01's refusal.
pub fn packet_read(bytes: &[u8], taps: &mut [u32]) -> Result<Read, u32> {
    let mut found = [0usize; 3];
    // SAFETY: each pointer goes with its own length.
    match unsafe { ffi::biv_packet_read(bytes.as_ptr(), bytes.len(), taps.as_mut_ptr(), taps.len(), &mut found) } {
        0 => Ok(Read { count: found[0], images: found[1] as u32, rays: found[2] as u32 }),
        k => Err(k),
    }
}

/// Writes the packet of the first `count` taps; its length, or document 01's refusal.
pub fn packet_write(count: usize, images: u32, rays: u32, taps: &[u32], out: &mut [u8]) -> Result<usize, u32> {
    let mut found = [0usize];
    // SAFETY: as for `packet_read`.
    match unsafe { ffi::biv_packet_write(count, images, rays, taps.as_ptr(), taps.len(), out.as_mut_ptr(), out.len(), &mut found) } {
        0 => Ok(found[0]),
        k => Err(k),
    }
}

/// The walls of an image by its number; the error is document 02's refusal. What stands behind the walls must be 0, and all after a refusal.
pub fn walls(planes: u32, order: u32, on: &[u8], number: u32) -> Result<Vec<u8>, u32> {
    let (mut walls, mut found) = ([255u8; 8], [usize::MAX]);
    // SAFETY: the pointer goes with its own length.
    let refusal = unsafe { ffi::biv_walls(planes, order, on.as_ptr(), on.len(), number, &mut walls, &mut found) };
    assert!(walls[found[0]..].iter().all(|&p| p == 0), "planes behind the walls");
    match refusal {
        0 => Ok(walls[..found[0]].to_vec()),
        k => {
            assert_eq!(found[0], 0, "walls after a refusal");
            Err(k)
        }
    }
}

/// A scene as the port takes it: document 01's scene parts, and the settings as two lists.
#[derive(Clone, Debug, Default)]
pub struct Lent {
    pub counts: [u32; COUNTS],
    pub floats: [f32; FLOATS],
    pub room: u32,
    pub meshes: Vec<u32>,
    pub transforms: Vec<f32>,
    pub positions: Vec<f32>,
    pub indices: Vec<u32>,
    pub materials: Vec<f32>,
    pub rows: u32,
}

/// How many areas a query is lent, the output the last.
pub const AREAS: usize = 20;

/// The two areas that `load_scene` writes, and the lengths of those behind them.
#[derive(Clone, Debug, Default)]
pub struct Areas {
    pub columns: Vec<f32>,
    pub handles: Vec<u32>,
    pub others: [usize; AREAS - 2],
}

impl Areas {
    /// The lengths of all areas, in the order of docs/AREAS.md.
    pub fn lens(&self) -> [usize; AREAS] {
        std::array::from_fn(|i| match i {
            0 => self.columns.len(),
            1 => self.handles.len(),
            _ => self.others[i - 2],
        })
    }
}

/// The least length of each area: so much a triple, a candidate, and more (docs/AREAS.md).
#[rustfmt::skip]
pub const LEAST: [[usize; 3]; AREAS] = [
    [COLUMNS, 0, 0], // triangles
    [1, 0, 0], // handles
    [22, 0, 0], // tree
    [8, 0, 0], // nodes
    [1, 0, 0], // leaf_order
    [3, 1, 0], // keys
    [3, 0, 0], // low_keys
    [24, 1, 0], // words
    [24, 1, 0], // scratch
    [3, 0, 0], // index
    [3, CANDIDATE_WORDS, 0], // numbers
    [24, 0, 0], // adjacency
    [3, 1, 0], // queue
    [3, 0, 1], // offsets
    [12, CANDIDATE_FLOATS, 0], // floats
    [1, 0, 1], // plane_triangles
    [12, 0, 0], // plane_floats
    [5, 0, 0], // plane_words
    [18, 0, 0], // plane_edges
    [0, 0, OUTPUT], // output
];

/// The least length of area i for t triples and c candidates.
pub fn least(i: usize, t: usize, c: usize) -> usize {
    LEAST[i][0] * t + LEAST[i][1] * c + LEAST[i][2]
}

/// The least lengths as the port gives them; none for more than 4,096 triples.
pub fn area_lengths(t: usize, c: u32) -> Option<[usize; AREAS]> {
    let mut lens = [0; AREAS];
    // SAFETY: it asks nothing.
    unsafe { ffi::biv_area_lengths(t, c, &mut lens) }.then_some(lens)
}

/// Words of 32 bits of an element of each area; the output is no work area.
pub const WORDS: [usize; AREAS] = [1, 1, 1, 1, 1, 2, 2, 2, 2, 1, 1, 1, 1, 1, 1, 1, 1, 1, 1, 0];

/// What the port says that a query will cost: the refusal, the images of each order, and candidates, rays and words.
#[derive(Clone, Copy, Debug, PartialEq, Eq)]
pub struct Cost {
    pub refusal: u32,
    pub counts: [u32; 8],
    pub found: [u64; 3],
}

pub fn query_cost(crossing_limit: u32, planes: u32, first: u32, order: u32, triples: u32) -> Cost {
    let mut c = Cost { refusal: 0, counts: [u32::MAX; 8], found: [u64::MAX; 3] };
    // SAFETY: it asks nothing.
    c.refusal = unsafe { ffi::biv_query_cost(crossing_limit, planes, first, order, triples, &mut c.counts, &mut c.found) };
    c
}

/// Columns of a triangle, floats and words of a candidate, and the least output (docs/AREAS.md).
pub const COLUMNS: usize = 23;
pub const CANDIDATE_FLOATS: usize = 13;
pub const CANDIDATE_WORDS: usize = 2;
pub const OUTPUT: usize = 10 + 54 * TAPS;

/// Whole triples of a scene, at most.
pub const MOST_TRIPLES: usize = 4096;

/// What `load_scene` answers.
#[derive(Clone, Copy, Debug, PartialEq, Eq)]
pub enum Loaded {
    Refused(u32),
    Triangles { kept: usize, placings: usize, triples: usize },
}

/// The front of a query: settings, scene and areas tested, triangles placed into the columns.
pub fn load_scene(l: &Lent, a: &mut Areas) -> Loaded {
    let (mut found, lens) = ([0usize; 3], a.lens());
    // SAFETY: each pointer goes with its own length, the `&mut` areas are distinct, counts, floats, lens and found have their lengths, and
    // lens begins with those of columns and handles.
    #[rustfmt::skip]
    let refusal = unsafe {
        ffi::biv_load_scene(
            l.counts.as_ptr(), l.counts.len(), l.floats.as_ptr(), l.floats.len(), l.room,
            l.meshes.as_ptr(), l.meshes.len(), l.transforms.as_ptr(), l.transforms.len(),
            l.positions.as_ptr(), l.positions.len(), l.indices.as_ptr(), l.indices.len(),
            l.materials.as_ptr(), l.materials.len(), l.rows,
            lens.as_ptr(), lens.len(),
            a.columns.as_mut_ptr(), a.columns.len(), a.handles.as_mut_ptr(), a.handles.len(), found.as_mut_ptr(), found.len(),
        )
    };
    match refusal {
        0 => Loaded::Triangles { kept: found[0], placings: found[1], triples: found[2] },
        k => Loaded::Refused(k),
    }
}

/// What the pass over the triples answers: whether a corner was too far, the triangles kept and the placings made.
#[derive(Clone, Copy, Debug, PartialEq, Eq)]
pub struct Placed {
    pub far: bool,
    pub kept: usize,
    pub placings: usize,
}

/// `triangles_from_scene`, the pass alone. None where the parts do not fit each other or the areas, or where there are too many triples.
pub fn triangles_from_scene(l: &Lent, a: &mut Areas) -> Option<Placed> {
    let counts = || l.meshes.chunks_exact(3).map(|m| (m[0] as usize, m[1] as usize));
    let (meshes, n) = (l.meshes.len() / 3, counts().map(|(_, k)| k / 3).sum::<usize>());
    let fits = l.meshes.len() == 3 * meshes && l.transforms.len() == 16 * meshes
        && l.positions.len() == 3 * counts().map(|(v, _)| v).sum::<usize>() && l.indices.len() == counts().map(|(_, k)| k).sum::<usize>();
    if !fits || n > MOST_TRIPLES || a.columns.len() < COLUMNS * n || a.handles.len() < n {
        return None;
    }
    let mut found = [0usize; 2];
    // SAFETY: each pointer goes with its own length, the `&mut` areas are distinct, and what the function asks was just tested.
    #[rustfmt::skip]
    let refusal = unsafe {
        ffi::biv_triangles_from_scene(
            l.meshes.as_ptr(), l.meshes.len(), l.transforms.as_ptr(), l.transforms.len(),
            l.positions.as_ptr(), l.positions.len(), l.indices.as_ptr(), l.indices.len(), n,
            a.columns.as_mut_ptr(), a.columns.len(), a.handles.as_mut_ptr(), a.handles.len(), found.as_mut_ptr(), found.len(),
        )
    };
    Some(Placed { far: refusal == 6, kept: found[0], placings: found[1] })
}

/// The tree over the first `m` triangles of columns, with the areas it was built in.
#[derive(Clone, Debug)]
pub struct Tree {
    extents: Vec<f32>,
    keys: [Vec<u64>; 3],
    areas: Vec<f32>,
    /// What a trace reads: 12 floats a triangle for the padded boxes, and then 10 for the rows.
    traced: Vec<f32>,
    handles: Vec<u32>,
    /// Six floats a node, its box; four words a node, its links (left, right, start, len); the triangles in the order of the leaves.
    pub boxes: Vec<f32>,
    pub nodes: Vec<u32>,
    pub order: Vec<u32>,
    pub count: usize,
}

/// What `Tree::intersect` answers.
#[derive(Clone, Copy, Debug, PartialEq)]
pub struct Hit {
    pub distance: f32,
    pub point: [f32; 3],
    pub triangle: usize,
}

/// A node has links to nodes of the tree, or a part of the order.
fn sound(nodes: &[u32], count: usize, m: usize) -> bool {
    nodes.chunks_exact(4).take(count).all(|n| match n[3] {
        0 => (n[0] as usize) < count && (n[1] as usize) < count,
        len => n[2] as usize + len as usize <= m,
    })
}

impl Tree {
    /// Areas for a tree of `m` triangles; no tree stands in them yet.
    pub fn areas(m: usize) -> Tree {
        Tree {
            extents: vec![0.0; 9 * m], keys: [vec![0; 3 * m], vec![0; m], vec![0; m]], areas: vec![0.0; m], traced: vec![0.0; 22 * m],
            handles: Vec::new(), boxes: vec![0.0; 12 * m], nodes: vec![0; 8 * m], order: vec![0; m], count: 0,
        }
    }

    /// The padded boxes of the nodes, six floats each.
    fn padded(&self) -> &[f32] {
        &self.traced[..12 * self.order.len()]
    }

    /// The rows of the triangles in the order of the leaves, ten floats each.
    fn rows(&self) -> &[f32] {
        &self.traced[12 * self.order.len()..]
    }

    /// Builds the tree over the first triangles of columns of `n` floats, as many as it has areas for; false where a centroid is not finite.
    pub fn build(&mut self, columns: &[f32], handles: &[u32], n: usize) -> bool {
        let m = self.order.len();
        assert!(columns.len() >= COLUMNS * n && handles.len() >= n, "the columns are short of {n} triangles");
        assert!(0 < m && m <= n && m < 65536, "{m} of {n} triangles are no tree");
        let [keys, words, scratch] = &mut self.keys;
        // SAFETY: as asserted; the areas have the lengths of `areas`, each is distinct and goes with its own length.
        #[rustfmt::skip]
        let count = unsafe {
            ffi::biv_build_flat_bvh(
                columns.as_ptr(), columns.len(), handles.as_ptr(), handles.len(), n, self.extents.as_mut_ptr(), self.extents.len(),
                keys.as_mut_ptr(), keys.len(), self.order.as_mut_ptr(), m,
                words.as_mut_ptr(), words.len(), scratch.as_mut_ptr(), scratch.len(), self.areas.as_mut_ptr(), self.areas.len(),
                self.boxes.as_mut_ptr(), self.boxes.len(), self.nodes.as_mut_ptr(), self.nodes.len(),
                self.traced.as_mut_ptr(), self.traced.len(),
            )
        };
        self.count = count;
        self.handles.clear();
        self.handles.extend_from_slice(&handles[..m]);
        self.handles.resize(n, 0); // rows past the tree's triangles were never written
        count > 0
    }

    /// The nearest hit of a ray of origin, direction, least and greatest distance.
    pub fn intersect(&self, ray: &[f32; 8]) -> Option<Hit> {
        if self.count == 0 {
            return None;
        }
        debug_assert!(sound(&self.nodes, self.count, self.order.len()));
        let (mut hit, mut place) = ([0.0f32; 4], [0usize]);
        // SAFETY: a tree of `count` nodes stands in the areas; ray, hit and place have their lengths.
        #[rustfmt::skip]
        let found = unsafe {
            ffi::biv_intersect(
                self.padded().as_ptr(), self.padded().len(), self.nodes.as_ptr(), self.nodes.len(), self.order.as_ptr(), self.order.len(),
                self.rows().as_ptr(), self.rows().len(), self.handles.as_ptr(), self.handles.len(), self.count,
                ray.as_ptr(), ray.len(), hit.as_mut_ptr(), hit.len(), place.as_mut_ptr(), place.len(),
            )
        };
        found.then(|| Hit { distance: hit[0], point: [hit[1], hit[2], hit[3]], triangle: place[0] })
    }
}

/// A reflection plane.
#[derive(Clone, Debug, PartialEq)]
pub struct Plane {
    pub normal: [f32; 3],
    pub offset: f32,
    pub min: [f32; 3],
    pub max: [f32; 3],
    pub spread: f32,
    pub area: f32,
    pub triangles: Vec<usize>,
    pub border: Vec<([f32; 3], [f32; 3])>,
    pub fitted: bool,
}

/// Planes as areas: 12 floats and 5 words each, their triangles, and their border edges of 6 floats each (docs/AREAS.md).
#[derive(Clone, Debug, Default)]
pub struct Planes {
    floats: Vec<f32>,
    words: Vec<u32>,
    members: Vec<u32>,
    edges: Vec<f32>,
    count: usize,
}

fn three(l: &[f32]) -> [f32; 3] {
    [l[0], l[1], l[2]]
}

impl Planes {
    pub fn len(&self) -> usize {
        self.count
    }

    pub fn is_empty(&self) -> bool {
        self.count == 0
    }

    pub fn all(&self) -> Vec<Plane> {
        (0..self.count).map(|p| self.plane(&self.floats[12 * p..], &self.words[5 * p..])).collect()
    }

    fn plane(&self, f: &[f32], w: &[u32]) -> Plane {
        let run = |k: usize| w[k] as usize..(w[k] + w[k + 1]) as usize;
        Plane {
            normal: three(f), offset: f[3], min: three(&f[4..]), max: three(&f[7..]), spread: f[10], area: f[11],
            triangles: self.members[run(0)].iter().map(|&i| i as usize).collect(),
            border: run(2).map(|e| (three(&self.edges[6 * e..]), three(&self.edges[6 * e + 3..]))).collect(),
            fitted: w[4] != 0,
        }
    }
}

/// The areas that `build_planes` works in, for columns of n floats.
#[derive(Clone, Debug)]
pub struct PlaneAreas {
    n: usize,
    hi: Vec<u64>,
    lo: Vec<u64>,
    words: Vec<u64>,
    scratch: Vec<u64>,
    index: Vec<u32>,
    id: Vec<u32>,
    linked: Vec<u32>,
    queue: Vec<u32>,
    starts: Vec<u32>,
    gfloats: Vec<f32>,
    members: Vec<u32>,
    rows: Vec<f32>,
    kept: Vec<u32>,
    edges: Vec<f32>,
}

impl PlaneAreas {
    pub fn new(n: usize) -> PlaneAreas {
        assert!(n <= 4096, "{n} triangles are too many");
        PlaneAreas {
            n, hi: vec![0; 3 * n], lo: vec![0; 3 * n], words: vec![0; 24 * n], scratch: vec![0; 24 * n], index: vec![0; 3 * n], id: vec![0; 3 * n],
            linked: vec![0; 24 * n], queue: vec![0; 3 * n], starts: vec![0; 3 * n + 1], gfloats: vec![0.0; 12 * n], members: vec![0; n + 1],
            rows: vec![0.0; 12 * n], kept: vec![0; 5 * n], edges: vec![0.0; 18 * n],
        }
    }

    /// The planes of the triangles of a tree, built over these `columns`; how many they are. Counts and floats are the settings, as `Lent` has them.
    pub fn build(&mut self, tree: &Tree, columns: &[f32], counts: &[u32; COUNTS], floats: &[f32; FLOATS]) -> usize {
        let (n, m) = (self.n, tree.order.len());
        assert!(m <= n && tree.handles.len() == n, "the tree stands over columns of {} floats, not of {n}", tree.handles.len());
        assert!(columns.len() >= COLUMNS * n, "the columns are short of {n} triangles");
        assert!(tree.count > 0 && 6 * tree.count <= tree.padded().len() && 4 * tree.count <= tree.nodes.len() && 10 * m <= tree.rows().len());
        debug_assert!(sound(&tree.nodes, tree.count, m));
        // SAFETY: as asserted; the areas have the lengths of `new`, each is distinct and goes with its own length.
        #[rustfmt::skip]
        let count = unsafe {
            ffi::biv_build_planes(
                columns.as_ptr(), columns.len(), tree.handles.as_ptr(), n, n, m, counts.as_ptr(), counts.len(), floats.as_ptr(), floats.len(),
                tree.padded().as_ptr(), tree.padded().len(), tree.nodes.as_ptr(), tree.nodes.len(), tree.order.as_ptr(), m,
                tree.rows().as_ptr(), tree.rows().len(), tree.count,
                self.hi.as_mut_ptr(), self.hi.len(), self.lo.as_mut_ptr(), self.lo.len(), self.words.as_mut_ptr(), self.words.len(),
                self.scratch.as_mut_ptr(), self.scratch.len(), self.index.as_mut_ptr(), self.index.len(), self.id.as_mut_ptr(), self.id.len(),
                self.linked.as_mut_ptr(), self.linked.len(), self.queue.as_mut_ptr(), self.queue.len(), self.starts.as_mut_ptr(), self.starts.len(),
                self.gfloats.as_mut_ptr(), self.gfloats.len(), self.members.as_mut_ptr(), self.members.len(), self.rows.as_mut_ptr(), self.rows.len(),
                self.kept.as_mut_ptr(), self.kept.len(), self.edges.as_mut_ptr(), self.edges.len(),
            )
        };
        count
    }

    /// The `count` planes that `build` left.
    pub fn planes(&self, count: usize) -> Planes {
        let words = self.kept[..5 * count].to_vec();
        let end = |k: usize| words.chunks_exact(5).map(|w| (w[k] + w[k + 1]) as usize).max().unwrap_or(0);
        Planes { floats: self.rows[..12 * count].to_vec(), members: self.members[..end(0)].to_vec(), edges: self.edges[..6 * end(2)].to_vec(), words, count }
    }
}

/// The longest sequence of planes.
pub const ORDER: usize = 8;

/// What `Scene::path` answers: the fate (0 for a candidate, else the first test that failed, 1 to 7), the rays traced, and for a candidate its
/// energy, delay, direction and gains.
#[derive(Clone, Copy, Debug, PartialEq)]
pub struct Path {
    pub fate: u32,
    pub rays: u32,
    pub candidate: Option<[f32; CANDIDATE_FLOATS]>,
}

/// A tree with the columns and handles it was built over, a material table, planes and settings: all that a path depends on.
#[derive(Clone, Debug)]
pub struct Scene {
    tree: Tree,
    columns: Vec<f32>,
    n: usize,
    materials: Vec<f32>,
    planes: Planes,
    /// The settings, as `Lent` has them.
    pub counts: [u32; COUNTS],
    pub floats: [f32; FLOATS],
}

impl Scene {
    /// `tree` is as `build` left it, over `columns` of `n` floats. Tests what else `biv_path` requires.
    pub fn new(mut tree: Tree, columns: Vec<f32>, n: usize, materials: Vec<f32>, planes: Planes, counts: [u32; COUNTS], floats: [f32; FLOATS]) -> Scene {
        let m = tree.order.len();
        tree.handles.truncate(m); // rows past the tree's triangles were never written
        assert!(tree.count > 0 && 6 * tree.count <= tree.padded().len() && 4 * tree.count <= tree.nodes.len() && 10 * m <= tree.rows().len());
        assert!(sound(&tree.nodes, tree.count, m), "a link leads out of the tree");
        assert!(columns.len() >= COLUMNS * n, "the columns are short of {n} triangles");
        assert!(tree.handles.iter().chain([&0]).all(|&h| 16 * (h as usize + 1) <= materials.len()), "a handle has no row");
        assert!(planes.members.iter().all(|&i| (i as usize) < n), "a plane has a triangle past the columns");
        Scene { tree, columns, n, materials, planes, counts, floats }
    }

    /// The path by way of 1 to 8 planes.
    pub fn path(&self, seq: &[u32], source: &[f32; 3], listener: &[f32; 3]) -> Path {
        assert!(!seq.is_empty() && seq.len() <= ORDER && seq.iter().all(|&p| (p as usize) < self.planes.count), "{seq:?} is no sequence of planes");
        let (t, p) = (&self.tree, &self.planes);
        let (mut found, mut rays) = ([0.0f32; CANDIDATE_FLOATS], [0u32]);
        // SAFETY: as asserted here and in `new`; the runs of each plane are within their areas, as `build_planes` left them; found and rays are distinct.
        #[rustfmt::skip]
        let fate = unsafe {
            ffi::biv_path(
                t.padded().as_ptr(), t.padded().len(), t.nodes.as_ptr(), t.nodes.len(), t.order.as_ptr(), t.order.len(),
                t.rows().as_ptr(), t.rows().len(), t.handles.as_ptr(), t.handles.len(), t.count,
                self.materials.as_ptr(), self.materials.len(), self.columns.as_ptr(), self.columns.len(), self.n,
                p.floats.as_ptr(), p.floats.len(), p.words.as_ptr(), p.words.len(), p.members.as_ptr(), p.members.len(),
                p.edges.as_ptr(), p.edges.len(), p.count, self.counts.as_ptr(), self.counts.len(),
                self.floats.as_ptr(), self.floats.len(), seq.as_ptr(), seq.len(), source.as_ptr(), source.len(),
                listener.as_ptr(), listener.len(), found.as_mut_ptr(), found.len(), rays.as_mut_ptr(), rays.len(),
            )
        };
        Path { fate, rays: rays[0], candidate: (fate == 0).then_some(found) }
    }

    /// The bounces of 1 to 8 planes: the fate (0, 2 or 3), and where it is 0 the points, the one next to the source first.
    pub fn bounces(&self, seq: &[u32], source: &[f32; 3], listener: &[f32; 3]) -> (u32, [[f32; 3]; ORDER]) {
        assert!(!seq.is_empty() && seq.len() <= ORDER && seq.iter().all(|&p| (p as usize) < self.planes.count), "{seq:?} is no sequence of planes");
        let p = &self.planes;
        let mut points = [[0.0f32; 3]; ORDER];
        // SAFETY: as asserted here and in `new`; `push` keeps the runs of each plane within their areas.
        #[rustfmt::skip]
        let fate = unsafe {
            ffi::biv_bounces(
                self.columns.as_ptr(), self.columns.len(), self.n, p.floats.as_ptr(), p.floats.len(), p.words.as_ptr(), p.words.len(),
                p.members.as_ptr(), p.members.len(), p.edges.as_ptr(), p.edges.len(), p.count, self.floats[0],
                seq.as_ptr(), seq.len(), source.as_ptr(), source.len(), listener.as_ptr(), listener.len(),
                points.as_mut_ptr().cast(), 3 * ORDER,
            )
        };
        (fate, points)
    }
}

/// What a search found: counts, and the candidates in the order of their images.
#[derive(Clone, Debug, Default)]
pub struct Searched {
    pub images: usize,
    pub rays: usize,
    pub found: usize,
    /// More candidates than there was room for.
    pub over: bool,
}

impl Scene {
    /// All sequences of up to `order` planes with their paths; the candidates go to `rows`, which has room for as many as it was made for.
    pub fn search(&self, source: &[f32; 3], listener: &[f32; 3], order: usize, rows: &mut Candidates) -> Searched {
        assert!(order <= ORDER && self.planes.count <= 256, "order {order} or {} planes are too many", self.planes.count);
        let (t, p, room) = (&self.tree, &self.planes, rows.index.len());
        let mut found = [0usize; 3];
        // SAFETY: as asserted here and in `new`; `with_room` keeps `room` rows; the `&mut` areas are distinct.
        #[rustfmt::skip]
        let over = unsafe {
            ffi::biv_search_images(
                t.padded().as_ptr(), t.padded().len(), t.nodes.as_ptr(), t.nodes.len(), t.order.as_ptr(), t.order.len(),
                t.rows().as_ptr(), t.rows().len(), t.handles.as_ptr(), t.handles.len(), t.count,
                self.materials.as_ptr(), self.materials.len(), self.columns.as_ptr(), self.columns.len(), self.n,
                p.floats.as_ptr(), p.floats.len(), p.words.as_ptr(), p.words.len(), p.members.as_ptr(), p.members.len(),
                p.edges.as_ptr(), p.edges.len(), p.count, self.counts.as_ptr(), self.counts.len(),
                self.floats.as_ptr(), self.floats.len(), source.as_ptr(), source.len(), listener.as_ptr(), listener.len(), order, room,
                rows.floats.as_mut_ptr(), rows.floats.len(), rows.words.as_mut_ptr(), rows.words.len(), found.as_mut_ptr(), found.len(),
            )
        };
        Searched { images: found[0], rays: found[1], found: found[2], over }
    }
}

/// Candidates as rows, and the areas that ranking them takes.
#[derive(Clone, Debug, Default)]
pub struct Candidates {
    floats: Vec<f32>,
    words: Vec<u32>,
    keys: [Vec<u64>; 3],
    index: Vec<u32>,
}

impl Candidates {
    /// A candidate more: energy, delay, direction and gains, and order and number. Energy and delay must be numbers.
    pub fn push(&mut self, floats: [f32; CANDIDATE_FLOATS], words: [u32; CANDIDATE_WORDS]) {
        assert!(!floats[0].is_nan() && !floats[1].is_nan(), "energy or delay is NaN");
        self.floats.extend(floats);
        self.words.extend(words);
        self.keys.iter_mut().for_each(|k| k.push(0));
        self.index.push(0);
    }

    /// Rows for so many candidates, all zero.
    pub fn with_room(room: usize) -> Candidates {
        let words = || vec![0; room];
        Candidates { floats: vec![0.0; CANDIDATE_FLOATS * room], words: vec![0; CANDIDATE_WORDS * room], keys: [words(), words(), words()], index: vec![0; room] }
    }

    /// The floats and words of a row.
    pub fn row(&self, k: usize) -> (&[f32], &[u32]) {
        (&self.floats[CANDIDATE_FLOATS * k..][..CANDIDATE_FLOATS], &self.words[CANDIDATE_WORDS * k..][..CANDIDATE_WORDS])
    }

    /// Ranks all rows: the positions of those kept, best first, at most as many as `out` is long; how many they are.
    pub fn rank(&mut self, speed: f32, rate: f32, out: &mut [u32]) -> usize {
        self.rank_first(self.index.len(), speed, rate, out)
    }

    /// The same for the first `n` rows.
    pub fn rank_first(&mut self, n: usize, speed: f32, rate: f32, out: &mut [u32]) -> usize {
        assert!((0..n).all(|k| { let f = self.row(k).0; !f[0].is_nan() && !f[1].is_nan() }), "energy or delay is NaN");
        let [keys, words, scratch] = &mut self.keys;
        // SAFETY: `push` keeps n rows of numbers and n of each area; the `&mut` areas are distinct.
        #[rustfmt::skip]
        let kept = unsafe {
            ffi::biv_rank_reflections(
                self.floats.as_ptr(), self.floats.len(), self.words.as_ptr(), self.words.len(), n, speed, rate, out.len(),
                keys.as_mut_ptr(), n, self.index.as_mut_ptr(), n, words.as_mut_ptr(), n, scratch.as_mut_ptr(), n, out.as_mut_ptr(), out.len(),
            )
        };
        kept
    }
}

/// An element of an area, as bits.
pub trait Element: Copy + Default {
    fn bits(self) -> u64;
    fn of(bits: u32) -> Self;
}

impl Element for f32 {
    fn bits(self) -> u64 {
        self.to_bits() as u64
    }
    fn of(bits: u32) -> f32 {
        f32::from_bits(bits)
    }
}

impl Element for u32 {
    fn bits(self) -> u64 {
        self as u64
    }
    fn of(bits: u32) -> u32 {
        bits
    }
}

impl Element for u64 {
    fn bits(self) -> u64 {
        self
    }
    fn of(bits: u32) -> u64 {
        (bits as u64) << 32 | bits as u64
    }
}

macro_rules! work {
    ($($name:ident: $t:ty),*) => {
        /// The 19 work areas of a query (docs/AREAS.md).
        #[derive(Clone, Debug, Default)]
        pub struct Work {
            $(pub $name: Vec<$t>),*
        }

        impl Work {
            /// Areas of the least lengths for t triples and c candidates, all zero.
            pub fn new(t: usize, c: usize) -> Work {
                let mut lengths = (0..AREAS).map(|i| least(i, t, c));
                Work { $($name: vec![Default::default(); lengths.next().expect("a length")]),* }
            }

            /// Every element another than zero and than the one before it, so that what is written shows.
            pub fn fill(&mut self) {
                $(self.$name.iter_mut().enumerate().for_each(|(k, x)| *x = Element::of(0x4100_0000 + k as u32));)*
            }

            /// Area i one shorter; false where it has no length.
            pub fn cut(&mut self, i: usize) -> bool {
                let cuts: Vec<fn(&mut Work) -> bool> = vec![$(|w: &mut Work| w.$name.pop().is_some()),*];
                cuts[i](self)
            }

            /// The first area that is not all zero.
            pub fn not_zero(&self) -> Option<&'static str> {
                $(if self.$name.iter().any(|x| x.bits() != 0) { return Some(stringify!($name)); })*
                None
            }

            /// The first area that is another than the other's.
            pub fn differs(&self, other: &Work) -> Option<&'static str> {
                $(if self.$name.len() != other.$name.len() || self.$name.iter().zip(&other.$name).any(|(a, b)| a.bits() != b.bits()) { return Some(stringify!($name)); })*
                None
            }
        }
    };
}

#[rustfmt::skip]
work!(
    triangles: f32, handles: u32, tree: f32, nodes: u32, leaf_order: u32, keys: u64, low_keys: u64, words: u64, scratch: u64, index: u32, numbers: u32,
    adjacency: u32, queue: u32, offsets: u32, floats: f32, plane_triangles: u32, plane_floats: f32, plane_words: u32, plane_edges: f32
);

/// What the whole call answers: a refusal of 1 to 7 with zeros, or 0 with the counts and the packet's length.
#[derive(Clone, Copy, Debug, Default, PartialEq, Eq)]
pub struct Traced {
    pub refusal: u32,
    pub count: usize,
    pub images: usize,
    pub rays: usize,
    pub bytes: usize,
}

/// `trace_early_reflections`, from the scene's parts to the packet in `out`. Any lengths of the areas will do: those that are short are refused.
pub fn trace(l: &Lent, work: &mut Work, out: &mut [u8], source: &[f32; 3], listener: &[f32; 3], separated: bool) -> Traced {
    let mut found = [0usize; 4];
    // SAFETY: each pointer goes with its own length, and the `&mut` areas are distinct.
    #[rustfmt::skip]
    let refusal = unsafe {
        ffi::biv_trace_early_reflections(
            work.triangles.as_mut_ptr(), work.triangles.len(), work.handles.as_mut_ptr(), work.handles.len(),
            work.tree.as_mut_ptr(), work.tree.len(), work.nodes.as_mut_ptr(), work.nodes.len(), work.leaf_order.as_mut_ptr(), work.leaf_order.len(),
            work.keys.as_mut_ptr(), work.keys.len(), work.low_keys.as_mut_ptr(), work.low_keys.len(), work.words.as_mut_ptr(), work.words.len(),
            work.scratch.as_mut_ptr(), work.scratch.len(), work.index.as_mut_ptr(), work.index.len(), work.numbers.as_mut_ptr(), work.numbers.len(),
            work.adjacency.as_mut_ptr(), work.adjacency.len(), work.queue.as_mut_ptr(), work.queue.len(),
            work.offsets.as_mut_ptr(), work.offsets.len(), work.floats.as_mut_ptr(), work.floats.len(),
            work.plane_triangles.as_mut_ptr(), work.plane_triangles.len(), work.plane_floats.as_mut_ptr(), work.plane_floats.len(),
            work.plane_words.as_mut_ptr(), work.plane_words.len(), work.plane_edges.as_mut_ptr(), work.plane_edges.len(), out.as_mut_ptr(), out.len(),
            &mut found, &l.counts, &l.floats, l.room,
            l.meshes.as_ptr(), l.meshes.len(), l.transforms.as_ptr(), l.transforms.len(), l.positions.as_ptr(), l.positions.len(),
            l.indices.as_ptr(), l.indices.len(), l.materials.as_ptr(), l.materials.len(), l.rows, source, listener, separated,
        )
    };
    Traced { refusal, count: found[0], images: found[1], rays: found[2], bytes: found[3] }
}
