#!/usr/bin/env python3
"""Copies the published Rust files from upstream/ to crates/ and applies the patches that PATCHES.md lists.

Every patch is an exact text replacement that must match exactly once."""
import os, sys
HERE = os.path.dirname(os.path.abspath(__file__))
PUBLISHED = os.path.join(HERE, "upstream")
FILES = [
    "crates/quasar-backends/src/cpu_simd.rs",
    "crates/quasar-backends/src/debug_capture.rs",
    "crates/quasar-core/src/air.rs",
    "crates/quasar-core/src/backend.rs",
    "crates/quasar-core/src/bands.rs",
    "crates/quasar-core/src/distance.rs",
    "crates/quasar-core/src/emitter_pattern.rs",
    "crates/quasar-core/src/rays.rs",
    "crates/quasar-core/src/scene.rs",
]
# (id, old, new); all in cpu_simd.rs
P = []
def p(i, old, new): P.append((i, old, new))

# P1 merge angle -> cosine and flag (document 01, Scene and settings)
p("P1a", """    pub plane_merge_angle_deg: f32,
""", """    pub plane_merge_angle_deg: f32,
    /// ORACLE P1: cosine of the merge angle, as given, and the flag 'angle above 0'.
    pub plane_merge_cos: f32,
    pub plane_merge_on: bool,
    /// ORACLE P5: constants that notes 7 and 12 turn into settings (defaults: the constants).
    pub oracle_max_paths: usize,
    pub oracle_max_crossings: usize,
    pub oracle_probe_radius: f32,
    /// ORACLE P3: keep one fate byte for each image.
    pub oracle_fates: bool,
""")
p("P1b", """            plane_merge_angle_deg: 5.0,
""", """            plane_merge_angle_deg: 5.0,
            plane_merge_cos: 5.0_f32.to_radians().cos(),
            plane_merge_on: true,
            oracle_max_paths: MAX_REFLECTION_PATHS,
            oracle_max_crossings: OCCLUSION_MAX_CROSSINGS,
            oracle_probe_radius: REFLECTION_VISIBILITY_RADIUS,
            oracle_fates: false,
""")
p("P1c", "    let merge_cos = cfg.plane_merge_angle_deg.to_radians().cos();\n",
         "    let merge_cos = cfg.plane_merge_cos; // ORACLE P1\n")
p("P1d", "    if cfg.plane_merge_angle_deg > 0.0 && cfg.plane_merge_offset > 0.0 && np > 1 {\n",
         "    if cfg.plane_merge_on && cfg.plane_merge_offset > 0.0 && np > 1 { // ORACLE P1\n")

# P2 the image number of a candidate
p("P2a", """pub(crate) struct PathCandidate {
    pub(crate) energy: f32,
""", """pub(crate) struct PathCandidate {
    pub(crate) number: usize, // ORACLE P2: st.nodes at the visit
    pub(crate) energy: f32,
""")
p("P2b", """    Some(PathCandidate {
        energy,
""", """    Some(PathCandidate {
        number: 0, // ORACLE P2: set by validate_image_path
        energy,
""")
p("P2c", "        candidate.refl.gain = candidate.refl.gain.mul(&blocker_gain);\n",
         "        candidate.number = st.nodes; // ORACLE P2\n"
         "        candidate.refl.gain = candidate.refl.gain.mul(&blocker_gain);\n")
p("P2d", "pub(crate) fn rank_reflections(mut found: Vec<PathCandidate>, cfg: &CpuSimdConfig) -> Vec<EarlyReflection> {\n",
         "pub(crate) fn rank_reflections(mut found: Vec<PathCandidate>, cfg: &CpuSimdConfig, log: &mut OracleLog) -> Vec<EarlyReflection> { // ORACLE P2\n"
         "    log.candidates = found.len();\n")
p("P2e", """        if !dup {
            out.push(c.refl);
        }
""", """        if !dup {
            log.kept.push(c.number); // ORACLE P2
            out.push(c.refl);
        } else {
            log.duplicate(c.number); // ORACLE P3: fate 8
        }
""")
p("P2f", "    out.truncate(cfg.max_reflections.min(MAX_REFLECTION_PATHS));\n    out\n",
         "    out.truncate(cfg.max_reflections.min(cfg.oracle_max_paths)); // ORACLE P5\n"
         "    log.cut(out.len()); // ORACLE P2, P3: fate 9\n    out\n")
p("P2g", "        let reflections = rank_reflections(st.found, &self.config);\n",
         "        let reflections = rank_reflections(st.found, &self.config, &mut st.log); // ORACLE P2\n"
         "        st.log.nodes = st.nodes;\n"
         "        ORACLE_LAST.with(|l| *l.borrow_mut() = std::mem::take(&mut st.log));\n")
p("P2h", """    nodes: usize,
    found: Vec<PathCandidate>,
""", """    nodes: usize,
    log: OracleLog, // ORACLE P2
    found: Vec<PathCandidate>,
""")
p("P2i", """            nodes: 0,
            found: Vec::new(),
""", """            nodes: 0,
            log: OracleLog { on: self.config.oracle_fates, ..Default::default() }, // ORACLE P2
            found: Vec::new(),
""")

# P3 the fate of each image (02, note 1)
p("P3a", """                if let Some(c) = self.validate_image_path(st, n, materials) {
                    st.found.push(c);
                }
            }
""", """                if let Some(c) = self.validate_image_path(st, n, materials) {
                    st.log.fate(st.nodes, 0); // ORACLE P3
                    st.found.push(c);
                }
            } else {
                st.log.fate(st.nodes, 1); // ORACLE P3
            }
""")
p("P3b", """            if !(da * db < 0.0) || da.abs() < PLANE_SIDE_EPS || db.abs() < PLANE_SIDE_EPS {
                return None;
""", """            if !(da * db < 0.0) || da.abs() < PLANE_SIDE_EPS || db.abs() < PLANE_SIDE_EPS {
                st.log.fate(st.nodes, 2); // ORACLE P3
                return None;
""")
p("P3c", """                self.note_rejected(st, &pts[k - 1..n], crate::debug_capture::RejectReason::OutsideSurface);
""", """                self.note_rejected(st, &pts[k - 1..n], crate::debug_capture::RejectReason::OutsideSurface);
                st.log.fate(st.nodes, 3); // ORACLE P3
""")
p("P3d", """        if !(total.is_finite() && total > 0.0) || total > self.config.max_reflection_distance {
            return None;
""", """        st.log.note_path(&blocker_gain, edge_w, &pts[..n]); // ORACLE P3: coverage figures and the bounces, only noted
        if !(total.is_finite() && total > 0.0) || total > self.config.max_reflection_distance {
            st.log.fate(st.nodes, 4); // ORACLE P3
            return None;
""")
p("P3e", """        let Some(mut candidate) = candidate else {
            self.note_rejected(st, &pts[..n], crate::debug_capture::RejectReason::BelowEnergy);
""", """        let Some(mut candidate) = candidate else {
            self.note_rejected(st, &pts[..n], crate::debug_capture::RejectReason::BelowEnergy);
            st.log.fate(st.nodes, 7); // ORACLE P3
            st.log.pre_energy += 1;
""")
p("P3f", """            self.note_rejected(st, &pts[..n], reason);
            return None;
""", """            self.note_rejected(st, &pts[..n], reason);
            st.log.fate(st.nodes, match reason { RejectReason::EdgeFade => 5, RejectReason::Blocked => 6, _ => 7 }); // ORACLE P3
            return None;
""")

# P4 private items made reachable: a file included at the end of the module
p("P4", "    fn trace_ray(&self, ray: &Ray) -> Vec<RayHit> {\n        self.trace_single_ray(ray).into_iter().collect()\n    }\n}\n",
        "    fn trace_ray(&self, ray: &Ray) -> Vec<RayHit> {\n        self.trace_single_ray(ray).into_iter().collect()\n    }\n}\n"
        "\ninclude!(\"oracle_ext.rs\"); // ORACLE P4\n")

# P5 constants of notes 7 and 12 (see P1 and P2f too); note 7's reference is the Rust with this one at 1,024
p("P5c", "pub(crate) const MAX_REFLECTION_PATHS: usize = 64;\n",
         "pub(crate) const MAX_REFLECTION_PATHS: usize = 1024; // ORACLE P5: 64 as published\n")
p("P5a", "            if crossings > OCCLUSION_MAX_CROSSINGS {\n",
         "            if crossings > self.config.oracle_max_crossings { // ORACLE P5\n"
         "                ORACLE_NINTH.with(|n| n.set(n.get() + 1)); // ORACLE P3: coverage figure only\n")
for k in range(3):
    p("P5b%d" % k, "                    REFLECTION_VISIBILITY_RADIUS * (u[%d] * c + w[%d] * s),\n" % (k, k),
                   "                    self.config.oracle_probe_radius * (u[%d] * c + w[%d] * s), // ORACLE P5\n" % (k, k))

for f in FILES:
    src = os.path.join(PUBLISHED, f)
    data = open(src, encoding="utf-8", newline="").read()
    if f.endswith("cpu_simd.rs"):
        if not data.endswith("\n"): data += "\n"
        for i, old, new in P:
            c = data.count(old)
            if c != 1:
                sys.exit("patch %s matches %d times" % (i, c))
            data = data.replace(old, new)
    dst = os.path.join(HERE, f)
    os.makedirs(os.path.dirname(dst), exist_ok=True)
    if not (os.path.exists(dst) and open(dst, encoding="utf-8", newline="").read() == data):
        open(dst, "w", encoding="utf-8", newline="").write(data)
print("%d patches applied" % len(P))
