/* The stages of the port, each as a function of its own: numbers, sort, scene, tree, planes, paths, search, ranking. The comparison with the Rust
 * uses them (reference/crates/port); a station needs bivelondry.h alone. They are the crate `stages`, target/staticlib/libstages.a (made by
 * `tools/staticlib.sh stages`). Each is proved equal to the definition named beside it; nothing checks these declarations against the Rattle source. */
#ifndef BIVELONDRY_STAGES_H
#define BIVELONDRY_STAGES_H

#include <stdbool.h>
#include <stddef.h>
#include <stdint.h>

#ifdef __cplusplus
extern "C" {
#endif

/* ---- numbers: any float, NaN and infinities too */

float biv_sqrt(float x);                           /* float/specs/Sqrt.antt, sqrt_of */
int64_t biv_round(float x);                        /* float/specs/Round.antt, round_of: halves away from zero */
float biv_min(float a, float b);                   /* float/specs/Compare.antt, min_of */
float biv_max(float a, float b);                   /* max_of */
float biv_clamp(float x, float low, float high);   /* clamp_of */
float biv_abs(float x);                            /* abs_of */

/* bands/specs/Distance.antt, gain_of. The curve is 0 for Inverse, else Linear. */
float biv_distance_gain(uint32_t curve, float reference_distance, float rolloff_factor, float min_distance, float max_distance, float distance);

/* ---- the sort: a slice is a pointer and then a length */

/* order/specs/Sort.antt. Sorts words by their upper 32 bits, stably; scratch is as long as a. */
void biv_sort_words(uint64_t *a, size_t a_len, uint64_t *scratch, size_t scratch_len);

/* Sorts positions of keys by their keys, stably: each position is below keys_len; words and scratch are as long as index or longer. */
void biv_sort_by_key(const uint64_t *keys, size_t keys_len, uint32_t *index, size_t index_len, uint64_t *words, size_t words_len,
                     uint64_t *scratch, size_t scratch_len);

/* ---- the scene */

/* placing/specs/Loading.antt. Answers the first refusal of 1 to 6 that applies; or 0, with found[0..3] the triangles kept, the placings
 * made and the whole triples. counts has 6 words: max_reflection_order, max_reflections, max_reflection_planes, plane_merge (0 or not),
 * curve (0 is Inverse), crossing_limit. floats has 12: reflection_edge_fade, max_reflection_distance, temperature_celsius, sample_rate, plane_merge_cos,
 * plane_merge_offset, plane_buried_distance, reference_distance, rolloff_factor, min_distance, max_distance, probe_radius. lens has 20: the lengths of
 * all areas that a query is lent, in the order of docs/AREAS.md, the first two triangles_len and handles_len. found has 3 or more. The
 * lengths of counts, floats, lens and found, and those two, are the caller's to keep; every other length is tested. */
uint32_t biv_load_scene(const uint32_t *counts, size_t counts_len, const float *floats, size_t floats_len, uint32_t c,
                        const uint32_t *meshes, size_t meshes_len, const float *transforms, size_t transforms_len,
                        const float *positions, size_t positions_len, const uint32_t *indices, size_t indices_len,
                        const float *materials, size_t materials_len, uint32_t rows,
                        const size_t *lens, size_t lens_len,
                        float *triangles, size_t triangles_len, uint32_t *handles, size_t handles_len, size_t *found, size_t found_len);

/* placing/specs/TwoPasses.antt. The pass over the triples alone, of parts that fit each other: meshes has three words a mesh (vertices, indices,
 * handle), transforms 16 floats a mesh, positions three floats a vertex, indices the indices; n are the whole triples, at most 4,096. Answers 6 where a
 * placed corner is not finite or exceeds 10,000, and then leaves triangles and handles zero; else 0. found[0] gets the triangles kept and found[1] the
 * placings made, three for each triple in range up to and with the first that is too far, in both cases.
 * triangles has 23 n floats or more, handles n words, found 2. The caller keeps all this. */
uint32_t biv_triangles_from_scene(const uint32_t *meshes, size_t meshes_len, const float *transforms, size_t transforms_len,
                                  const float *positions, size_t positions_len, const uint32_t *indices, size_t indices_len, size_t n,
                                  float *triangles, size_t triangles_len, uint32_t *handles, size_t handles_len, size_t *found, size_t found_len);

/* ---- the tree */

/* bvh/specs/Bvh.antt. The tree over the first m = leaf_order_len triangles of columns of n floats (what biv_load_scene left); 0 < m <= n and
 * m < 65,536. Answers the count of its nodes, 0 where a centroid is not finite. The least lengths are:
 * extents 9 m, keys 3 m, words, scratch and areas m, boxes 12 m, nodes 8 m, tree 22 m. A node is six floats of boxes (least and greatest
 * corner) and four words of nodes (left, right, start, len; len is 0 unless it is a leaf, whose triangles stand in leaf_order from start on).
 * tree has in its first 12 m floats the padded boxes, in the next 10 m the leaves' rows: what the functions below take as padded and leaves.
 * The caller keeps the lengths. */
size_t biv_build_flat_bvh(const float *triangles, size_t triangles_len, const uint32_t *handles, size_t handles_len, size_t n,
                          float *extents, size_t extents_len, uint64_t *keys, size_t keys_len, uint32_t *leaf_order, size_t leaf_order_len,
                          uint64_t *words, size_t words_len, uint64_t *scratch, size_t scratch_len, float *areas, size_t areas_len,
                          float *boxes, size_t boxes_len, uint32_t *nodes, size_t nodes_len, float *tree, size_t tree_len);

/* tree_trace/specs/Trace.antt, intersect_of. The nearest hit in a tree of count nodes, count above 0, that biv_build_flat_bvh left in padded,
 * nodes, leaf_order and leaves. ray has 8 floats: origin, direction, least and greatest distance. Answers whether there is a hit; hit (4 floats or
 * more) then has its distance and point, place its triangle; else they are as they were. */
bool biv_intersect(const float *padded, size_t padded_len, const uint32_t *nodes, size_t nodes_len, const uint32_t *leaf_order, size_t leaf_order_len,
                   const float *leaves, size_t leaves_len, const uint32_t *handles, size_t handles_len, size_t count,
                   const float *ray, size_t ray_len, float *hit, size_t hit_len, size_t *place, size_t place_len);

/* ---- planes */

/* planes/specs/Build.antt, planes_of_triangles. The mirror planes of the first m triangles of columns of n floats (what biv_load_scene left, with its
 * handles; m <= n <= 4,096), over their tree of nodes_count above 0 nodes in padded, nodes, leaf_order and leaves, by
 * the settings counts and setting_floats (as for biv_load_scene). Answers how many planes there are; they stand in plane_floats (12
 * each), plane_words (5 each), plane_triangles and plane_edges, as biv_path takes them. Least lengths: keys, low_keys and index 3 n, words and
 * scratch 24 n, numbers and queue 3 n, plane_triangles n + 1, offsets 3 n + 1, adjacency 24 n, plane_words 5 n, plane_floats and floats 12 n,
 * plane_edges 18 n.
 * The caller keeps them. */
size_t biv_build_planes(const float *triangles, size_t triangles_len, const uint32_t *handles, size_t handles_len, size_t n, size_t m,
                        const uint32_t *counts, size_t counts_len, const float *setting_floats, size_t setting_floats_len,
                        const float *padded, size_t padded_len, const uint32_t *nodes, size_t nodes_len, const uint32_t *leaf_order, size_t leaf_order_len,
                        const float *leaves, size_t leaves_len, size_t nodes_count,
                        uint64_t *keys, size_t keys_len, uint64_t *low_keys, size_t low_keys_len, uint64_t *words, size_t words_len,
                        uint64_t *scratch, size_t scratch_len, uint32_t *index, size_t index_len, uint32_t *numbers, size_t numbers_len,
                        uint32_t *adjacency, size_t adjacency_len, uint32_t *queue, size_t queue_len, uint32_t *offsets, size_t offsets_len,
                        float *floats, size_t floats_len, uint32_t *plane_triangles, size_t plane_triangles_len, float *plane_floats, size_t plane_floats_len,
                        uint32_t *plane_words, size_t plane_words_len, float *plane_edges, size_t plane_edges_len);

/* ---- paths */

/* paths/specs/Path.antt, path_of. The path from source by way of the planes seq (1 to 8 of them, source side first, each below count) to
 * listener. Answers its fate: 0 for a candidate, else the first test that failed: 1 image too far, 2 plane not crossed, 3 off the surface,
 * 4 too long, 5 faded at an edge, 6 blocked, 7 too faint. rays[0] gets the rays traced; found (13 floats or more) gets a candidate's energy,
 * delay, direction (3) and gains (8), and is as it was for the other fates. padded, nodes, leaf_order, leaves and handles are those of
 * biv_intersect, with nodes_count above 0 nodes; a row of materials is 16 floats (absorptions, transmissions), and each handle has one, as has
 * handle 0; the triangles' columns have n floats each. A plane is 12 plane_floats (normal, offset, box from, box to, spread, area) and 5
 * plane_words (first and count of its plane_triangles, first and count of its border edges in plane_edges, fitted); an edge is 6 floats, a triangle is
 * below n. counts and setting_floats are the settings as for biv_load_scene, with a crossing_limit of at most 32, source and listener 3 floats each. The
 * caller keeps all this. */
uint32_t biv_path(const float *padded, size_t padded_len, const uint32_t *nodes, size_t nodes_len, const uint32_t *leaf_order, size_t leaf_order_len,
                  const float *leaves, size_t leaves_len, const uint32_t *handles, size_t handles_len, size_t nodes_count,
                  const float *materials, size_t materials_len, const float *triangles, size_t triangles_len, size_t n,
                  const float *plane_floats, size_t plane_floats_len, const uint32_t *plane_words, size_t plane_words_len,
                  const uint32_t *plane_triangles, size_t plane_triangles_len, const float *plane_edges, size_t plane_edges_len, size_t count,
                  const uint32_t *counts, size_t counts_len, const float *setting_floats, size_t setting_floats_len,
                  const uint32_t *seq, size_t seq_len, const float *source, size_t source_len, const float *listener, size_t listener_len,
                  float *found, size_t found_len, uint32_t *rays, size_t rays_len);

/* bounces/specs/Bounces.antt, bounces_of. The bounces on the planes seq (as for biv_path), found from the listener back to the source. Answers 0
 * where all are made, else 2 (a plane is not crossed) or 3 (a point is off the surface), whatever the image's distance. points (24 floats or
 * more) gets the points where all are made, three floats each, the one next to the source first; else it holds nothing of use. fade is the
 * width of the edge window. */
uint32_t biv_bounces(const float *triangles, size_t triangles_len, size_t n, const float *plane_floats, size_t plane_floats_len,
                     const uint32_t *plane_words, size_t plane_words_len, const uint32_t *plane_triangles, size_t plane_triangles_len,
                     const float *plane_edges, size_t plane_edges_len, size_t count, float fade, const uint32_t *seq, size_t seq_len,
                     const float *source, size_t source_len, const float *listener, size_t listener_len, float *points, size_t points_len);

/* ---- ranking */

/* ranking/specs/Rows.antt, Ranked. Puts the positions of the candidates kept, best first, into out; answers how many. A candidate is 13
 * candidate_floats (energy, delay, direction, gains; energy and delay are numbers) and 2 candidate_words (order, number); there are n. keys, index,
 * words and scratch have n, out has limit; the caller keeps the lengths. */
size_t biv_rank_reflections(const float *candidate_floats, size_t candidate_floats_len, const uint32_t *candidate_words,
                            size_t candidate_words_len, size_t n, float speed, float rate, size_t limit,
                            uint64_t *keys, size_t keys_len, uint32_t *index, size_t index_len, uint64_t *words, size_t words_len,
                            uint64_t *scratch, size_t scratch_len, uint32_t *out, size_t out_len);

/* search/specs/Outcome.antt, stages/specs/Searches.antt. All sequences of up to order planes (order at most 8, count at most 256) with their
 * paths; areas and settings as biv_path has them. found (3 or more) gets images, rays and candidates; the candidates stand in candidate_floats and
 * candidate_words, which have room for `room` rows (13 floats and 2 words each), as biv_rank_reflections takes them. Answers whether one found no room. */
bool biv_search_images(const float *padded, size_t padded_len, const uint32_t *nodes, size_t nodes_len, const uint32_t *leaf_order, size_t leaf_order_len,
                       const float *leaves, size_t leaves_len, const uint32_t *handles, size_t handles_len, size_t nodes_count,
                       const float *materials, size_t materials_len, const float *triangles, size_t triangles_len, size_t n,
                       const float *plane_floats, size_t plane_floats_len, const uint32_t *plane_words, size_t plane_words_len,
                       const uint32_t *plane_triangles, size_t plane_triangles_len, const float *plane_edges, size_t plane_edges_len, size_t count,
                       const uint32_t *counts, size_t counts_len, const float *setting_floats, size_t setting_floats_len,
                       const float *source, size_t source_len, const float *listener, size_t listener_len, size_t order, size_t room,
                       float *candidate_floats, size_t candidate_floats_len, uint32_t *candidate_words, size_t candidate_words_len, size_t *found, size_t found_len);

#ifdef __cplusplus
}
#endif

#endif
