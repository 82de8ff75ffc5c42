//! The echo taps of a booth of flat panels, by the proved port of Quasar's `trace_early_reflections`.
//!
//! ```
//! use bivelondry::{trace_early_reflections, Material, Mesh, Scene, Settings, Workspace};
//!
//! let mut scene = Scene::default();
//! let floor = scene.add_material(&Material { absorption: [0.75; 8], transmission: [0.0; 8] });
//! scene.add_mesh(&Mesh {
//!     positions: &[[-4.0, 0.0, -4.0], [4.0, 0.0, -4.0], [4.0, 0.0, 4.0], [-4.0, 0.0, 4.0]],
//!     indices: &[0, 1, 2, 0, 2, 3],
//!     material: floor,
//!     ..Mesh::default()
//! });
//! let settings = Settings { temperature_celsius: 20.0, ..Settings::default() };
//! let mut workspace = Workspace::new(1);
//! let packet = trace_early_reflections(&settings, &scene, [0.0, 2.0, 0.0], [3.0, 2.0, 0.0], false, &mut workspace)?;
//! assert_eq!((packet.images, packet.rays, packet.taps.len()), (1, 36, 1));
//! assert_eq!(packet.taps[0].delay_samples, 699.300_66);
//! # Ok::<(), bivelondry::Refusal>(())
//! ```
//!
//! Lengths and positions are in metres, temperatures in degrees Celsius, rates in hertz, delays in samples; axes are any three at right angles, the same for
//! scene, source, listener and answer. docs/BEHAVIOUR.md of the repository is the manual: settings, refusals and what to do about each, how images,
//! gains and the list are made.
//!
//! What is proved is what the archive holds (`target/staticlib/libexports.a`, by `tools/staticlib.sh exports`); this crate hands on to it. Its `unsafe`
//! calls pass slices of their own lengths and arrays of the length that their types say; no function of the archive asks more.

/// The archive's functions as they are, for the comparison with the Rust, which hands over what no caller should.
#[doc(hidden)]
pub mod ffi;

use std::fmt;

/// The version of this crate, which is that of the header (`BIV_VERSION`). A packet's count has two bytes since 0.3, and 0.3 refuses a packet of 0.2 with
/// [`Refusal::Bytes`], as 0.2 does one of 0.3.
pub const VERSION: &str = env!("CARGO_PKG_VERSION");
/// Bands of a gain, an absorption, a transmission: octaves around 62.5, 125, 250, 500, 1,000, 2,000, 4,000 and 8,000 Hz.
pub const BANDS: usize = 8;
/// Whole index triples of a scene, at most.
pub const MOST_TRIPLES: usize = 4096;
/// Candidate room, at most.
pub const MOST_CANDIDATES: u32 = 250_000;
/// Planes of a query or a forecast, at most.
pub const MOST_PLANES: usize = ffi::PLANES;
/// Planes of an image's sequence, at most.
pub const MOST_ORDER: u32 = ffi::ORDERS as u32;
/// The crossing limit, at most.
pub const MOST_CROSSINGS: u32 = 32;
/// Images of a query, at most: the first in the order of a dictionary over planes, which goes deep before it goes on. A query that has more stops there
/// ([`Packet::stopped_at_limit`]): all are visited up to 63 planes at order 3, 22 at 4, 12 at 5, 8 at 6, 6 at 7 and 5 at 8.
pub const MOST_IMAGES: u32 = 250_000;
/// Taps of a packet, at most.
pub const MOST_TAPS: usize = 1024;
/// Bytes of a packet, at most: 10, and 54 for each tap, which makes 55,306.
pub const OUTPUT_BYTES: usize = 10 + 54 * MOST_TAPS;

/// Why a query, a packet, an image's number or a forecast is refused; of several reasons the first in this order.
#[derive(Clone, Copy, Debug, PartialEq, Eq, PartialOrd, Ord, Hash)]
pub enum Refusal {
    /// 1: a setting or the candidate room lies outside its limits.
    Settings = 1,
    /// 2: a part of the scene has not the length that its counts say.
    Lengths,
    /// 3: a mesh has a material handle without a row.
    Material,
    /// 4: the meshes hold more than 4,096 whole index triples.
    Triangles,
    /// 5: an area is too short. A [`Workspace`] has the lengths, so that no call of this crate is refused with it.
    Areas,
    /// 6: a placed corner is not finite or beyond 10,000.
    Far,
    /// 7: more paths pass than there is candidate room.
    Candidates,
    /// 8: the packet's bytes end early or go on after the last tap.
    Bytes,
    /// 9: the packet's count, images, an order or an image number is out of range.
    Counts,
    /// 10: a float of the packet is not finite, or a delay or a gain not above 0.
    Numbers,
    /// 11: an image number comes twice, or the taps do not fall in squared-gain sum.
    Order,
    /// 13: no image has the number, or order or planes are out of range.
    NoImage = 13,
    /// 14: the crossing limit, planes, first planes, order or triples of a forecast lie outside their limits.
    Forecast = 14,
}

impl Refusal {
    pub const ALL: [Refusal; 13] = {
        use Refusal::*;
        [Settings, Lengths, Material, Triangles, Areas, Far, Candidates, Bytes, Counts, Numbers, Order, NoImage, Forecast]
    };

    /// The number of the refusal: 1 to 11, 13 and 14.
    pub fn number(self) -> u32 {
        self as u32
    }

    /// What the archive answers: 0 is no refusal.
    fn check(number: u32) -> Result<(), Refusal> {
        match number {
            0 => Ok(()),
            k => Err(*Refusal::ALL.iter().find(|r| r.number() == k).unwrap_or_else(|| panic!("the archive answers {k}, which is no refusal: does it belong to this crate?"))),
        }
    }
}

impl fmt::Display for Refusal {
    fn fmt(&self, f: &mut fmt::Formatter) -> fmt::Result {
        f.write_str(match self {
            Refusal::Settings => "a setting or the candidate room lies outside its limits",
            Refusal::Lengths => "a part of the scene has not the length that its counts say",
            Refusal::Material => "a mesh has a material handle without a row",
            Refusal::Triangles => "the meshes hold more than 4,096 whole index triples",
            Refusal::Areas => "an area is too short",
            Refusal::Far => "a placed corner is not finite or beyond 10,000",
            Refusal::Candidates => "more paths pass than there is candidate room",
            Refusal::Bytes => "the packet's bytes end early or go on after the last tap",
            Refusal::Counts => "the packet's count, images, an order or an image number is out of range",
            Refusal::Numbers => "a float of the packet is not finite, or a delay or a gain not above 0",
            Refusal::Order => "an image number comes twice, or the taps do not fall in squared-gain sum",
            Refusal::NoImage => "no image has the number, or order or planes are out of range",
            Refusal::Forecast => "the crossing limit, planes, first planes, order or triples of a forecast lie outside their limits",
        })
    }
}

impl std::error::Error for Refusal {}

/// Shape of the distance law.
#[derive(Clone, Copy, Debug, PartialEq, Eq)]
pub enum Curve {
    Inverse,
    Linear,
}

/// The distance law; each number 0 to 1,000,000.
#[derive(Clone, Copy, Debug, PartialEq)]
pub struct DistanceModel {
    pub curve: Curve,
    /// Metres: where the law is 1.
    pub reference_distance: f32,
    /// No unit: how steep the law is.
    pub rolloff_factor: f32,
    /// Metres: a shorter path counts as this long.
    pub min_distance: f32,
    /// Metres: a longer path counts as this long. Drops no echo.
    pub max_distance: f32,
}

/// The settings of a query, by the Rust's names. The default is the Rust's.
#[derive(Clone, Copy, Debug, PartialEq)]
pub struct Settings {
    /// Bounces of an echo. Any; used as at most 8.
    pub max_reflection_order: u32,
    /// Taps of the list. Any; used as at most 1,024.
    pub max_reflections: u32,
    /// 0 to 256: the most important ones reflect, all others only block.
    pub max_reflection_planes: u32,
    /// Metres, finite: how far from its border a surface reflects less. 0 or below: hard edges.
    pub reflection_edge_fade: f32,
    /// Metres, above 0, at most 1,000: the longest path.
    pub max_reflection_distance: f32,
    /// Of the air, degrees, -20 to 50: gives the speed of sound ([`speed_of_sound`]).
    pub temperature_celsius: f32,
    /// Hertz, 8,000 to 192,000.
    pub sample_rate: f32,
    /// No unit, -1 to 1: the cosine, taken in f32, of the Rust's `plane_merge_angle_deg`.
    pub plane_merge_cos: f32,
    /// Whether that angle is above 0.
    pub plane_merge: bool,
    /// Metres, finite. 0 or below: nothing is merged.
    pub plane_merge_offset: f32,
    /// Metres, finite. 0 or below: not tested.
    pub plane_buried_distance: f32,
    pub distance_model: DistanceModel,
    /// 1 to 32: surfaces that half a segment may pass through; the next one counts as opaque.
    pub crossing_limit: u32,
    /// Metres, 0 to 1: how far around the middle of a segment the bundle of nine rays goes.
    pub probe_radius: f32,
    /// Millionths of a decibel per metre in each band, 0 to 1,000,000 each: what the air takes. docs/BEHAVIOUR.md of the repository has usual ones.
    pub air: [u32; BANDS],
}

impl Default for Settings {
    fn default() -> Settings {
        Settings {
            max_reflection_order: 3,
            max_reflections: 16,
            max_reflection_planes: 32,
            reflection_edge_fade: 0.1,
            max_reflection_distance: 50.0,
            temperature_celsius: 20.0,
            sample_rate: 48_000.0,
            plane_merge_cos: f32::from_bits(0x3f7f_069e), // of 5 degrees
            plane_merge: true,
            plane_merge_offset: 0.25,
            plane_buried_distance: 0.05,
            distance_model: DistanceModel { curve: Curve::Inverse, reference_distance: 1.0, rolloff_factor: 1.0, min_distance: 1.0, max_distance: 10_000.0 },
            crossing_limit: 8,
            probe_radius: 0.06,
            air: [0; BANDS],
        }
    }
}

impl Settings {
    fn counts(&self) -> [u32; ffi::COUNTS] {
        let linear = self.distance_model.curve == Curve::Linear;
        let first = [self.max_reflection_order, self.max_reflections, self.max_reflection_planes, self.plane_merge as u32, linear as u32, self.crossing_limit];
        std::array::from_fn(|k| if k < first.len() { first[k] } else { self.air[k - first.len()] })
    }

    fn floats(&self) -> [f32; ffi::FLOATS] {
        let m = &self.distance_model;
        [
            self.reflection_edge_fade, self.max_reflection_distance, self.temperature_celsius, self.sample_rate, self.plane_merge_cos, self.plane_merge_offset,
            self.plane_buried_distance, m.reference_distance, m.rolloff_factor, m.min_distance, m.max_distance, self.probe_radius,
        ]
    }
}

/// A row of the material table; any floats.
#[derive(Clone, Copy, Debug, PartialEq)]
pub struct Material {
    /// Of energy: a bounce leaves the root of 1 - a of the amplitude. Held to 0 to 1; not finite is 1.
    pub absorption: [f32; BANDS],
    /// Of amplitude: the factor on what goes through. Held to 0 to 1; a path whose gains have a NaN is dropped.
    pub transmission: [f32; BANDS],
}

/// A mesh to add to a scene. The default has no vertices and the identity for its transform.
#[derive(Clone, Copy, Debug)]
pub struct Mesh<'a> {
    /// Placed by the transform they are metres, at most 10,000 from 0 on each axis.
    pub positions: &'a [[f32; 3]],
    /// Three a triangle; one that is out of range leaves its triangle out.
    pub indices: &'a [u32],
    /// What `Scene::add_material` answered.
    pub material: u32,
    /// Column by column; metres in the fourth column. The fourth row takes no part.
    pub transform: [f32; 16],
}

impl Default for Mesh<'_> {
    fn default() -> Self {
        let transform = std::array::from_fn(|k| if k % 5 == 0 { 1.0 } else { 0.0 });
        Mesh { positions: &[], indices: &[], material: 0, transform }
    }
}

/// A scene as the archive takes it: the meshes' words and, mesh after mesh, their parts. `add_material` and `add_mesh` keep the lengths that belong
/// together; parts that do not are refused with [`Refusal::Lengths`].
#[derive(Clone, Debug, Default, PartialEq)]
pub struct Scene {
    /// Three a mesh: vertices, indices, material.
    pub meshes: Vec<u32>,
    /// Sixteen a mesh.
    pub transforms: Vec<f32>,
    /// Three a vertex.
    pub positions: Vec<f32>,
    pub indices: Vec<u32>,
    /// Sixteen a row: absorption, then transmission.
    pub materials: Vec<f32>,
    /// Rows of the material table.
    pub rows: u32,
}

/// A length of a scene's part; no part is longer, since the archive refuses more triples long before.
fn count(n: usize) -> u32 {
    u32::try_from(n).expect("a scene of 2^32 elements")
}

impl Scene {
    /// Adds a row to the material table; the handle of its meshes.
    pub fn add_material(&mut self, m: &Material) -> u32 {
        self.materials.extend(m.absorption.iter().chain(&m.transmission));
        self.rows += 1;
        self.rows - 1
    }

    pub fn add_mesh(&mut self, m: &Mesh) {
        self.meshes.extend([count(m.positions.len()), count(m.indices.len()), m.material]);
        self.transforms.extend(m.transform);
        self.positions.extend(m.positions.iter().flatten());
        self.indices.extend(m.indices);
    }

    /// The whole index triples, which the work areas are sized by.
    pub fn triples(&self) -> usize {
        self.meshes.chunks_exact(3).map(|m| m[1] as usize / 3).sum()
    }
}

/// The memory that queries work in. It grows with the scenes it is lent for, and is used again without allocating.
#[derive(Clone, Debug)]
pub struct Workspace {
    c: u32,
    block: Vec<u64>,
    output: Vec<u8>,
}

/// The bytes of an element of each work area, in the order of docs/AREAS.md.
const ELEMENTS: [usize; ffi::WORK] = [4, 4, 4, 4, 4, 8, 8, 8, 8, 4, 4, 4, 4, 4, 4, 4, 4, 4, 4];

impl Workspace {
    /// Room for so many candidates, 0 to 250,000: all paths that pass must find room, not just those that are sent, else the query is refused with
    /// [`Refusal::Candidates`]. A candidate takes 88 bytes, which each call reads to leave them zero: 250,000 cost 22 MB and some 0.3 ms a call. A plain booth of
    /// six walls has 62 at order 3 and 340 at order 8; the program `booth` lends 4,096. Room for [`Cost::candidates`] is never refused.
    pub fn new(candidates: u32) -> Workspace {
        Workspace { c: candidates, block: Vec::new(), output: vec![0; OUTPUT_BYTES] }
    }

    /// The same, with the memory for scenes of up to so many triples (4,096 at most) taken at once.
    pub fn with_triples(candidates: u32, triples: usize) -> Workspace {
        let mut all = Workspace::new(candidates);
        all.areas(triples.min(MOST_TRIPLES));
        all
    }

    /// Bytes taken for the work areas.
    pub fn bytes(&self) -> usize {
        8 * self.block.len()
    }

    /// The areas for a scene: where each begins in the block, in words of 64 bits, and how long it is. None where no query is made.
    fn areas(&mut self, triples: usize) -> [(usize, usize); ffi::WORK] {
        let mut lens = [0usize; ffi::AREAS];
        let mut areas = [(0, 0); ffi::WORK];
        // more candidates are refused before an area is looked at
        // SAFETY: it asks nothing.
        if self.c > MOST_CANDIDATES || !unsafe { ffi::biv_area_lengths(triples, self.c, &mut lens) } {
            return areas;
        }
        let mut end = 0;
        for ((area, &len), element) in areas.iter_mut().zip(&lens).zip(ELEMENTS) {
            *area = (end, len);
            end += (len * element).div_ceil(8);
        }
        if self.block.len() < end {
            // zero pages of the system: what no query reaches is read, and stays one of them
            self.block = vec![0; end];
        }
        areas
    }
}

/// The speed of sound, in metres a second, that a query works out from its temperature: 343.2 times the root of (t + 273.15) / 293.15, each operation rounded
/// once to an f32. A delay of d samples is a path of `d * speed_of_sound(t) / sample_rate` metres.
///
/// ```
/// assert_eq!(bivelondry::speed_of_sound(20.0), 343.2);
/// ```
pub fn speed_of_sound(temperature_celsius: f32) -> f32 {
    // SAFETY: it asks nothing.
    unsafe { ffi::biv_speed_of_sound(temperature_celsius) }
}

/// What a query will cost.
#[derive(Clone, Copy, Debug, Default, PartialEq, Eq)]
pub struct Cost {
    /// Images of each order from 1 to 8 that are visited.
    pub counts: [u32; ffi::ORDERS],
    /// Their sum, images: a query with room for so many is never refused with [`Refusal::Candidates`]. [`MOST_IMAGES`]: the search will stop there.
    pub candidates: u32,
    /// Traced, at most.
    pub rays: u64,
    /// Words of 4 bytes of the work areas for the triples and so many candidates.
    pub words: u64,
}

/// What a query under a crossing limit (1 to 32) over so many planes (1 to 256), of which `first` may come first, of an order (1 to 8, as used: a query uses more than 8 as 8) and so many whole
/// triples (at most 4,096) will cost; [`Refusal::Forecast`] for others.
///
/// ```
/// use bivelondry::{query_cost, Refusal};
/// let cost = query_cost(8, 6, 6, 3, 12)?;
/// assert_eq!(cost.counts, [6, 30, 150, 0, 0, 0, 0, 0]);
/// assert_eq!((cost.candidates, cost.rays), (186, 113_724));
/// assert_eq!(query_cost(8, 6, 7, 3, 12), Err(Refusal::Forecast));
/// # Ok::<(), Refusal>(())
/// ```
pub fn query_cost(crossing_limit: u32, planes: u32, first: u32, order: u32, triples: u32) -> Result<Cost, Refusal> {
    let (mut counts, mut found) = ([0; ffi::ORDERS], [0; 3]);
    // SAFETY: it asks nothing.
    Refusal::check(unsafe { ffi::biv_query_cost(crossing_limit, planes, first, order, triples, &mut counts, &mut found) })?;
    let [candidates, rays, words] = found;
    Ok(Cost { counts, candidates: candidates as u32, rays, words })
}

/// A tap: one echo, as the packet has it.
#[derive(Clone, Copy, Debug, PartialEq)]
pub struct Tap {
    /// Bounces.
    pub order: u32,
    /// Number of the image, from 1: [`walls`] names its walls.
    pub number: u32,
    /// A unit vector from the listener to the last bounce, in the scene's axes.
    pub direction: [f32; 3],
    /// Samples from the moment when the source sounds, with a fraction.
    pub delay_samples: f32,
    /// Factors on the amplitude, 0 or above.
    pub gains: [f32; BANDS],
}

impl Tap {
    fn from_words(w: &[u32]) -> Tap {
        let f = |k: usize| f32::from_bits(w[k]);
        Tap { order: w[0], number: w[1], direction: [f(2), f(3), f(4)], delay_samples: f(5), gains: std::array::from_fn(|b| f(6 + b)) }
    }

    fn words(&self) -> impl Iterator<Item = u32> + '_ {
        let floats = self.direction.iter().chain([&self.delay_samples]).chain(&self.gains);
        [self.order, self.number].into_iter().chain(floats.map(|x| x.to_bits()))
    }
}

/// A packet: the taps of a query, best first, and its counts.
#[derive(Clone, Debug, Default, PartialEq)]
pub struct Packet {
    /// Images visited; [`MOST_IMAGES`] just where there are more ([`Packet::stopped_at_limit`]).
    pub images: u32,
    /// Rays traced for them.
    pub rays: u32,
    pub taps: Vec<Tap>,
}

impl Packet {
    /// Whether the search stopped at [`MOST_IMAGES`]. Then the list is not that of all echoes: later planes may never have come first, and then even their
    /// single bounces are missing. Ask for a lower order or fewer planes. (No planes and order have just that many images, so that it never says so of a whole search.)
    ///
    /// ```
    /// use bivelondry::{Packet, MOST_IMAGES};
    /// assert!(Packet { images: MOST_IMAGES, ..Packet::default() }.stopped_at_limit());
    /// assert!(!Packet { images: 186, ..Packet::default() }.stopped_at_limit());
    /// ```
    pub fn stopped_at_limit(&self) -> bool {
        self.images >= MOST_IMAGES
    }

    /// Reads a packet: refusals 8 to 11.
    pub fn read(bytes: &[u8]) -> Result<Packet, Refusal> {
        // 57 KB, too much for a small stack
        let (mut words, mut found) = (vec![0u32; ffi::TAP_WORDS * MOST_TAPS], [0usize; 3]);
        // SAFETY: each pointer goes with its own length, and the `&mut` areas are distinct.
        Refusal::check(unsafe { ffi::biv_packet_read(bytes.as_ptr(), bytes.len(), words.as_mut_ptr(), words.len(), &mut found) })?;
        let taps = words.chunks_exact(ffi::TAP_WORDS).take(found[0]).map(Tap::from_words).collect();
        Ok(Packet { images: found[1] as u32, rays: found[2] as u32, taps })
    }

    /// The packet's bytes: refusals 9 to 11.
    ///
    /// ```
    /// use bivelondry::{Packet, Refusal, Tap};
    /// let tap = Tap { order: 1, number: 1, direction: [0.0, -1.0, 0.0], delay_samples: 750.0, gains: [0.5, 0.0, 0.0, 0.0, 0.0, 0.0, 0.0, 0.25] };
    /// let packet = Packet { images: 1, rays: 36, taps: vec![tap] };
    /// let bytes = packet.write()?;
    /// assert_eq!(bytes.len(), 10 + 22 + 2 * 4);
    /// assert_eq!(Packet::read(&bytes)?, packet);
    /// assert_eq!(Packet::read(&bytes[..20]), Err(Refusal::Bytes));
    /// # Ok::<(), Refusal>(())
    /// ```
    pub fn write(&self) -> Result<Vec<u8>, Refusal> {
        let mut words: Vec<u32> = self.taps.iter().take(MOST_TAPS).flat_map(Tap::words).collect();
        words.resize(ffi::TAP_WORDS * MOST_TAPS, 0);
        let (mut out, mut found) = (vec![0u8; OUTPUT_BYTES], [0usize; 1]);
        // SAFETY: as for `read`; more than `MOST_TAPS` taps are refused.
        Refusal::check(unsafe {
            ffi::biv_packet_write(self.taps.len(), self.images, self.rays, words.as_ptr(), words.len(), out.as_mut_ptr(), out.len(), &mut found)
        })?;
        out.truncate(found[0]);
        Ok(out)
    }
}

/// The packet of a query as bytes, which stand in the workspace until its next use: refusals 1 to 4, 6 and 7. `separated` says that a wall stands
/// between source and listener, so that nothing is heard. Source and listener are in metres.
pub fn trace_packet<'w>(settings: &Settings, scene: &Scene, source: [f32; 3], listener: [f32; 3], separated: bool, workspace: &'w mut Workspace) -> Result<&'w [u8], Refusal> {
    let areas = workspace.areas(scene.triples());
    let (counts, floats, mut found) = (settings.counts(), settings.floats(), [0usize; 4]);
    let block = workspace.block.as_mut_ptr();
    let (out, out_len) = (workspace.output.as_mut_ptr(), workspace.output.len());
    // SAFETY: `areas` lays the areas one behind the other into the block, at multiples of 8 bytes, and they have their own lengths; scene parts go
    // with their own lengths; counts, floats, positions and found are arrays.
    let refusal = unsafe {
        let at = |i: usize| (block.add(areas[i].0), areas[i].1);
        ffi::trace(at, out, out_len, &mut found, &counts, &floats, workspace.c, scene, &source, &listener, separated)
    };
    Refusal::check(refusal)?;
    Ok(&workspace.output[..found[3]])
}

/// The taps of a query, best first, with its counts; refusals as for [`trace_packet`].
pub fn trace_early_reflections(settings: &Settings, scene: &Scene, source: [f32; 3], listener: [f32; 3], separated: bool, workspace: &mut Workspace) -> Result<Packet, Refusal> {
    Packet::read(trace_packet(settings, scene, source, listener, separated, workspace)?)
}

/// A plane of a scene, which a wall of a path is: its panels lie in it.
#[derive(Clone, Copy, Debug, PartialEq)]
pub struct Plane {
    /// A unit vector.
    pub normal: [f32; 3],
    /// Metres along it, from the origin.
    pub offset: f32,
    /// Square metres, of its triangles.
    pub area: f32,
    /// Whether the source lies on it (nearer than 0.1 mm), so that no path begins with it.
    pub source_on: bool,
}

/// The planes of a scene as a query with the same settings has them: refusals 1 to 4 and 6.
pub fn planes(settings: &Settings, scene: &Scene, source: [f32; 3], workspace: &mut Workspace) -> Result<Vec<Plane>, Refusal> {
    let areas = workspace.areas(scene.triples());
    let (counts, floats, mut on, mut found) = (settings.counts(), settings.floats(), [0u8; ffi::PLANES], [0usize; 1]);
    let block = workspace.block.as_mut_ptr();
    let at = |i: usize| (block.wrapping_add(areas[i].0), areas[i].1);
    // SAFETY: as for `trace_packet`.
    Refusal::check(unsafe { ffi::planes(at, &mut on, &mut found, &counts, &floats, workspace.c, scene, &source) })?;
    let (first, len) = at(ffi::PLANE_AREA);
    let len = len.min(ffi::PLANE_FLOATS * found[0]);
    // SAFETY: the area lies in the block and has that many floats, any bits of which are one; no planes have no area.
    let rows = if len == 0 { &[][..] } else { unsafe { std::slice::from_raw_parts(first.cast::<f32>(), len) } };
    let plane = |(f, &on): (&[f32], &u8)| Plane { normal: [f[0], f[1], f[2]], offset: f[3], area: f[11], source_on: on != 0 };
    Ok(rows.chunks_exact(ffi::PLANE_FLOATS).zip(&on).map(plane).collect())
}

/// The walls of the image with that number, as a [`Tap`] has it: which of the query's [`planes`] its path meets, the one next to the source first. The
/// settings are the query's. Refusal 13.
pub fn walls(settings: &Settings, planes: &[Plane], number: u32) -> Result<Vec<u8>, Refusal> {
    let on: Vec<bool> = planes.iter().map(|p| p.source_on).collect();
    find_walls(&on, settings.max_reflection_order.min(MOST_ORDER), number)
}

/// The same, where `on` says of each plane of the query whether the source lies on it; `order` is the query's, 1 to 8.
///
/// ```
/// use bivelondry::{find_walls, Refusal};
/// assert_eq!(find_walls(&[false; 6], 3, 186)?, [5, 4, 5]);
/// assert_eq!(find_walls(&[false; 6], 3, 187), Err(Refusal::NoImage));
/// # Ok::<(), Refusal>(())
/// ```
pub fn find_walls(on: &[bool], order: u32, number: u32) -> Result<Vec<u8>, Refusal> {
    let (mut planes, mut found) = ([0u8; ffi::ORDERS], [0usize; 1]);
    // 2^32 planes are refused as 257 are
    let count = u32::try_from(on.len()).unwrap_or(u32::MAX);
    // SAFETY: a bool is a byte, 0 or 1; the pointer goes with its own length.
    Refusal::check(unsafe { ffi::biv_walls(count, order, on.as_ptr().cast(), on.len(), number, &mut planes, &mut found) })?;
    Ok(planes[..found[0]].to_vec())
}
