/* Bivelondry for C and C++: the echo taps of a booth of flat panels.
 *
 * A caller has settings, a scene, one block of memory for the work and one output buffer:
 *
 *     struct biv_settings settings = biv_default_settings();
 *     size_t size = biv_block_size(biv_triples(&scene), c);
 *     void *block = calloc(1, size);
 *     static uint8_t out[BIV_OUTPUT_BYTES];
 *     static struct biv_tap taps[BIV_MOST_TAPS];
 *     struct biv_answer answer;
 *     uint32_t refusal = biv_trace(&settings, c, &scene, source, listener, false, block, size, out, sizeof out, &answer);
 *     if (refusal != BIV_NO_REFUSAL)
 *         fprintf(stderr, "%s\n", biv_refusal_text(refusal));
 *     else
 *         refusal = biv_read(out, answer.bytes, taps, &answer);
 *
 * bindings/c/case_a.c is the whole of it. The block may be used again and again, for every scene that it is long enough for; two calls at the same
 * time need a block each. What it holds does not matter, but it is read, so it must have been set once, as calloc does (docs/HARDENING.md). Nothing
 * else is kept between calls, and nothing is allocated. out has 55 KB and taps 57 KB, which is much for the stack of a thread, and each call takes some
 * more of it (docs/HARDENING.md).
 *
 * Lengths and positions are in metres, temperatures in degrees Celsius, rates in hertz, delays in samples; axes are any three at right angles, the same for
 * scene, source, listener and answer. docs/BEHAVIOUR.md is the manual: settings, refusals and what to do about each, how images, gains and the list are made.
 *
 * Link -lbivelondry where tools/install.sh put it (`pkg-config --cflags --libs bivelondry`), or target/staticlib/libexports.a (made by
 * `tools/staticlib.sh exports`), which it is made from. What is proved is what stands there; this header hands on to it, and nothing checks its declarations
 * against the Rattle source but the tests of bindings/. The stages alone are in bivelondry_stages.h of the repository. */
#ifndef BIVELONDRY_H
#define BIVELONDRY_H

#include <stdbool.h>
#include <stddef.h>
#include <stdint.h>
#include <string.h>

/* ---- the version; bindings/installed.sh compares what else has it with these lines. A packet's count has two bytes since 0.3, and a packet of 0.2 is
 * refused by 0.3, one of 0.3 by 0.2, always with BIV_BYTES: taps have an even number of bytes, and what stands before them had 9 and has 10. */

#define BIV_VERSION_MAJOR 0
#define BIV_VERSION_MINOR 3
#define BIV_VERSION_PATCH 0
#define BIV_VERSION "0.3.0"

#ifdef __cplusplus
extern "C" {
#endif

/* ---- refusals: of several that apply, the lowest is answered, and all counts are 0 */

enum biv_refusal {
    BIV_NO_REFUSAL = 0,
    /* of a query */
    BIV_SETTINGS = 1,
    BIV_LENGTHS = 2,
    BIV_MATERIAL = 3,
    BIV_TRIANGLES = 4,
    BIV_AREAS = 5,
    BIV_FAR = 6,
    BIV_CANDIDATES = 7,
    /* of a packet */
    BIV_BYTES = 8,
    BIV_COUNTS = 9,
    BIV_NUMBERS = 10,
    BIV_TAP_ORDER = 11,
    /* of an image's number */
    BIV_NO_IMAGE = 13,
    /* of a forecast */
    BIV_FORECAST = 14
};

static inline const char *biv_refusal_text(uint32_t refusal)
{
    switch (refusal) {
    case BIV_NO_REFUSAL: return "no refusal";
    case BIV_SETTINGS: return "a setting or the candidate room lies outside its limits";
    case BIV_LENGTHS: return "a part of the scene has not the length that its counts say";
    case BIV_MATERIAL: return "a mesh has a material handle without a row";
    case BIV_TRIANGLES: return "the meshes hold more than 4,096 whole index triples";
    case BIV_AREAS: return "the output or tap area, or the block of memory, is too short";
    case BIV_FAR: return "a placed corner is not finite or beyond 10,000";
    case BIV_CANDIDATES: return "more paths pass than there is candidate room";
    case BIV_BYTES: return "the packet's bytes end early or go on after the last tap";
    case BIV_COUNTS: return "the packet's count, images, an order or an image number is out of range";
    case BIV_NUMBERS: return "a float of the packet is not finite, a delay or a gain not above 0";
    case BIV_TAP_ORDER: return "an image number comes twice, or the taps do not fall in squared-gain sum";
    case BIV_NO_IMAGE: return "no image has the number, or order, planes or plane bytes are out of range";
    case BIV_FORECAST: return "the crossing limit, planes, first planes, order or triples of a forecast lie outside their limits";
    default: return "no refusal of this library";
    }
}

/* ---- what a query takes */

#define BIV_MOST_TRIPLES 4096
#define BIV_MOST_CANDIDATES 250000 /* candidate room */
#define BIV_MOST_TAPS 1024
#define BIV_MOST_ORDER 8
#define BIV_MOST_PLANES 256
#define BIV_MOST_CROSSINGS 32
/* Sequences of planes that a query visits, at most: the first in the order of a dictionary, which goes deep before it goes on. An answer with so many
 * images stopped at this limit: later planes may never have come first, and then even their single bounces are missing. All are visited up to 63 planes at order
 * 3, 22 at 4, 12 at 5, 8 at 6, 6 at 7 and 5 at 8; so ask for a lower order or fewer planes. */
#define BIV_MOST_IMAGES 250000
#define BIV_BANDS 8
#define BIV_OUTPUT_BYTES (10 + 54 * BIV_MOST_TAPS) /* the longest packet, 55,306 bytes: 10, and 54 for each tap */

enum biv_curve { BIV_INVERSE = 0, BIV_LINEAR = 1 };

struct biv_distance_model {
    uint32_t curve; /* enum biv_curve; another number is refused with BIV_SETTINGS */
    /* each 0 to 1,000,000 */
    float reference_distance; /* m: where the law is 1 */
    float rolloff_factor;     /* no unit: how steep it is; 1 / d for Inverse with 1 and a reference of 1 m */
    float min_distance;       /* m: a shorter path counts as this long */
    float max_distance;       /* m: a longer path counts as this long; drops no echo */
};

/* By the Rust's names; the limits are those of refusal 1. */
struct biv_settings {
    uint32_t max_reflection_order;    /* bounces of an echo; any, used as at most 8 */
    uint32_t max_reflections;         /* taps of the list; any, used as at most 1,024 */
    uint32_t max_reflection_planes;   /* 0 to 256: the most important ones reflect, all others only block */
    float reflection_edge_fade;       /* m, finite: how far from its border a surface reflects less; 0 or below: hard edges */
    float max_reflection_distance;    /* m, above 0, at most 1,000: the longest path */
    float temperature_celsius;        /* of the air, degrees, -20 to 50: gives the speed of sound (biv_speed_of_sound) */
    float sample_rate;                /* Hz, 8,000 to 192,000 */
    float plane_merge_cos;            /* no unit, -1 to 1: the cosine, taken in float, of the Rust's plane_merge_angle_deg */
    bool plane_merge;                 /* whether that angle is above 0 */
    float plane_merge_offset;         /* m, finite; 0 or below: nothing is merged */
    float plane_buried_distance;      /* m, finite; 0 or below: not tested */
    struct biv_distance_model distance_model;
    uint32_t crossing_limit;          /* 1 to 32: surfaces that half a segment may pass through; the next one counts as opaque */
    float probe_radius;               /* m, 0 to 1: how far around the middle of a segment the bundle of nine rays goes */
    uint32_t air[BIV_BANDS];          /* millionths of dB/m in each band, 0 to 1,000,000 each: what the air takes; docs/BEHAVIOUR.md has usual ones */
};

/* The Rust's defaults. */
static inline struct biv_settings biv_default_settings(void)
{
    struct biv_settings s;
    s.max_reflection_order = 3;
    s.max_reflections = 16;
    s.max_reflection_planes = 32;
    s.reflection_edge_fade = 0.1f;
    s.max_reflection_distance = 50.0f;
    s.temperature_celsius = 20.0f;
    s.sample_rate = 48000.0f;
    s.plane_merge_cos = 0.99619472f; /* of 5 degrees, bits 3f7f069e */
    s.plane_merge = true;
    s.plane_merge_offset = 0.25f;
    s.plane_buried_distance = 0.05f;
    s.distance_model.curve = BIV_INVERSE;
    s.distance_model.reference_distance = 1.0f;
    s.distance_model.rolloff_factor = 1.0f;
    s.distance_model.min_distance = 1.0f;
    s.distance_model.max_distance = 10000.0f;
    s.crossing_limit = 8;
    s.probe_radius = 0.06f;
    memset(s.air, 0, sizeof s.air); /* the air takes nothing */
    return s;
}

/* The parts of a scene, each a pointer, aligned for its elements, and how many elements it has; a part of none may be NULL. */
struct biv_scene {
    const uint32_t *meshes; /* 3 a mesh: vertices, indices, material handle */
    size_t meshes_len;
    const float *transforms; /* 16 a mesh, column by column; metres in the fourth column; the fourth row takes no part */
    size_t transforms_len;
    const float *positions; /* 3 a vertex, x y z, mesh after mesh; placed by the transform they are metres, at most 10,000 from 0 on each axis */
    size_t positions_len;
    const uint32_t *indices; /* 3 a triangle, mesh after mesh, each into the mesh's own vertices, from 0; a triple with one out of range is left out */
    size_t indices_len;
    const float *materials; /* 16 a row: absorption (of energy), then transmission (of amplitude), 0 to 1, of eight bands around 62.5 .. 8,000 Hz */
    size_t materials_len;
    uint32_t rows; /* of the materials; a handle is below it */
};

/* The whole index triples of a scene, which its block is sized by. */
static inline size_t biv_triples(const struct biv_scene *scene)
{
    size_t triples = 0;
    for (size_t m = 0; m + 3 <= scene->meshes_len; m += 3)
        triples += scene->meshes[m + 1] / 3;
    return triples;
}

/* ---- what it answers */

struct biv_answer {
    size_t count;    /* taps */
    uint32_t images; /* sequences of planes tried; BIV_MOST_IMAGES just where there are more: the search stopped there, and echoes may be missing */
    uint32_t rays;   /* traced for them */
    size_t bytes;    /* of the packet */
};

/* A tap as the packet has it: 14 words of 32 bits. */
struct biv_tap {
    uint32_t order;         /* bounces, 1 to 8 */
    uint32_t number;        /* of its image, from 1: biv_walls_of names its walls */
    float direction[3];     /* a unit vector from the listener to the last bounce, in the scene's axes */
    float delay_samples;    /* samples from the moment when the source sounds, with a fraction */
    float gains[BIV_BANDS]; /* factors on the amplitude, 0 or above, of the bands around 62.5, 125, 250, 500, 1,000, 2,000, 4,000 and 8,000 Hz */
};

/* A plane of a scene, which a wall of a path is: its panels lie in it. */
struct biv_plane {
    float normal[3]; /* a unit vector */
    float offset;    /* m along it, from the origin */
    float area;      /* m^2, of its triangles */
    bool source_on;  /* whether the source lies on it (nearer than 0.1 mm), so that no path begins with it */
};

/* The walls of an image: the planes that its path meets, the one next to the source first, and 0 behind them. */
struct biv_walls_met {
    size_t len;
    uint8_t planes[BIV_MOST_ORDER];
};

typedef char biv_tap_is_14_words[sizeof(struct biv_tap) == 14 * sizeof(uint32_t) ? 1 : -1];

/* ---- the functions of the archive, which is for x86-64. A slice is a pointer, never NULL (but for an output of length 0, which is refused), and then a
 * length; an array is a pointer, never NULL, to as many elements as stand in its brackets, which no length follows; each is aligned for its elements, no two
 * overlap, and all was set once but for what a function only fills. That is all they ask: what else is wrong is refused. */

typedef char biv_size_is_64_bits[sizeof(size_t) == 8 ? 1 : -1];

#define BIV_AREAS_LENT 20 /* 19 work areas and the output */
#define BIV_SETTING_COUNTS 14
#define BIV_SETTING_FLOATS 12

/* exports/specs/Lengths.antt. The least lengths of all areas, in elements, for so many triples and candidates; false for more than 4,096 triples. */
bool biv_area_lengths(size_t triples, uint32_t c, size_t lens[BIV_AREAS_LENT]);

/* scene/specs/Speed.antt. The speed of sound, in m/s, that a query works out from its temperature: 343.2 times the root of (t + 273.15) / 293.15, each
 * operation rounded once to a float. A delay of d samples is a path of d * biv_speed_of_sound(t) / sample_rate metres. */
float biv_speed_of_sound(float temperature_celsius);

/* cost/specs/Forecast.antt. What a query will cost: under a crossing limit, of so many planes, first of which may come first, sequences of at most order planes
 * (as used: a query uses more than 8 as 8), and so many whole triples. Answers the refusal (14) or 0; counts gets the images of each order from 1 to 8, found candidates, rays and the words of 32 bits of
 * the work areas, all 0 after a refusal. */
uint32_t biv_query_cost(uint32_t crossing_limit, uint32_t planes, uint32_t first, uint32_t order, uint32_t triples, uint32_t counts[BIV_MOST_ORDER],
                        uint64_t found[3]);

/* packet/specs/Reader.antt. Answers the refusal (5, 8 to 11) or 0; found gets count, images and rays, 0 after a refusal. */
uint32_t biv_packet_read(const uint8_t *bytes, size_t bytes_len, uint32_t *taps, size_t taps_len, size_t found[3]);

/* packet/specs/Writer.antt. Answers the refusal (5, 9 to 11) or 0; found[0] is the packet's length, 0 after a refusal. */
uint32_t biv_packet_write(size_t count, uint32_t images, uint32_t rays, const uint32_t *taps, size_t taps_len, uint8_t *out, size_t out_len,
                          size_t found[1]);

/* numbering/specs/Walls.antt. From an image's number to its walls. on has a byte for each plane, 1 where the source lies on it, else 0. Answers 13 or 0; walls
 * gets the planes and zeros behind them, found[0] how many planes they are; zeros after a refusal. */
uint32_t biv_walls(uint32_t planes, uint32_t order, const uint8_t *on, size_t on_len, uint32_t number, uint8_t walls[BIV_MOST_ORDER], size_t found[1]);

/* exports/specs/Planes.antt, PlanesEntered. The planes of a scene, built as a query builds them, and on which of them the source lies. Areas, counts,
 * setting_floats, c and scene parts are those of biv_trace_early_reflections. Answers the refusal (1 to 6) or 0; found[0] is how many planes there
 * are, 0 after a refusal. Plane p stands at 12 p in plane_floats: normal 0 to 2, offset 3, box 4 to 9, spread 10, area 11. on[p] is 1 where the source
 * lies on it, else 0; behind the planes on is as it was. The other areas hold what the work left; after the
 * refusals 1 to 5, and for a scene without a triangle, what they held; after 6 too, but for triangles and handles, which are zero. */
uint32_t biv_planes(float *triangles, size_t triangles_len, uint32_t *handles, size_t handles_len, float *tree, size_t tree_len,
                    uint32_t *nodes, size_t nodes_len, uint32_t *leaf_order, size_t leaf_order_len, uint64_t *keys, size_t keys_len,
                    uint64_t *low_keys, size_t low_keys_len, uint64_t *words, size_t words_len, uint64_t *scratch, size_t scratch_len,
                    uint32_t *index, size_t index_len, uint32_t *numbers, size_t numbers_len, uint32_t *adjacency, size_t adjacency_len,
                    uint32_t *queue, size_t queue_len, uint32_t *offsets, size_t offsets_len, float *floats, size_t floats_len,
                    uint32_t *plane_triangles, size_t plane_triangles_len, float *plane_floats, size_t plane_floats_len, uint32_t *plane_words, size_t plane_words_len,
                    float *plane_edges, size_t plane_edges_len, uint8_t on[BIV_MOST_PLANES], size_t found[1],
                    const uint32_t counts[BIV_SETTING_COUNTS], const float setting_floats[BIV_SETTING_FLOATS], uint32_t c,
                    const uint32_t *meshes, size_t meshes_len, const float *transforms, size_t transforms_len,
                    const float *positions, size_t positions_len, const uint32_t *indices, size_t indices_len,
                    const float *materials, size_t materials_len, uint32_t rows_count, const float source[3]);

/* exports/specs/Entry.antt, Entered. From settings, scene parts and positions to the packet of taps in out. Answers the refusal, or 0. found
 * gets count, images, rays and the packet's length, zeros after a refusal. The 19 work areas come first, in the order of docs/AREAS.md,
 * which has their least lengths in whole triples T and c; short ones are refused. What they hold does not matter. After the refusals 1 to 5 they are
 * as they were, after 6, 7 and a result all zero. out (55,306 bytes or more) gets the packet, and is as it was past it and after a refusal. counts are
 * max_reflection_order, max_reflections, max_reflection_planes, plane_merge (0 or not), curve (0 is Inverse, 1 Linear, another refused), crossing_limit, and the air's eight
 * coefficients. setting_floats:
 * reflection_edge_fade, max_reflection_distance, temperature_celsius, sample_rate, plane_merge_cos, plane_merge_offset, plane_buried_distance,
 * reference_distance, rolloff_factor, min_distance, max_distance, probe_radius. c is the candidate room. separated says that source and listener are apart, so
 * that nothing is heard. */
uint32_t biv_trace_early_reflections(float *triangles, size_t triangles_len, uint32_t *handles, size_t handles_len, float *tree, size_t tree_len,
                                     uint32_t *nodes, size_t nodes_len, uint32_t *leaf_order, size_t leaf_order_len, uint64_t *keys, size_t keys_len,
                                     uint64_t *low_keys, size_t low_keys_len, uint64_t *words, size_t words_len, uint64_t *scratch, size_t scratch_len,
                                     uint32_t *index, size_t index_len, uint32_t *numbers, size_t numbers_len, uint32_t *adjacency, size_t adjacency_len,
                                     uint32_t *queue, size_t queue_len, uint32_t *offsets, size_t offsets_len, float *floats, size_t floats_len,
                                     uint32_t *plane_triangles, size_t plane_triangles_len, float *plane_floats, size_t plane_floats_len, uint32_t *plane_words, size_t plane_words_len,
                                     float *plane_edges, size_t plane_edges_len, uint8_t *out, size_t out_len, size_t found[4],
                                     const uint32_t counts[BIV_SETTING_COUNTS], const float setting_floats[BIV_SETTING_FLOATS], uint32_t c,
                                     const uint32_t *meshes, size_t meshes_len, const float *transforms, size_t transforms_len,
                                     const float *positions, size_t positions_len, const uint32_t *indices, size_t indices_len,
                                     const float *materials, size_t materials_len, uint32_t rows_count, const float source[3],
                                     const float listener[3], bool separated);

/* ---- the block: all work areas, one behind the other */

/* The work areas in the order of docs/AREAS.md, with their elements. */
#define BIV_WORK(AREA) \
    AREA(0, triangles, float) AREA(1, handles, uint32_t) AREA(2, tree, float) AREA(3, nodes, uint32_t) AREA(4, leaf_order, uint32_t) \
    AREA(5, keys, uint64_t) AREA(6, low_keys, uint64_t) AREA(7, words, uint64_t) AREA(8, scratch, uint64_t) AREA(9, index, uint32_t) \
    AREA(10, numbers, uint32_t) AREA(11, adjacency, uint32_t) AREA(12, queue, uint32_t) AREA(13, offsets, uint32_t) AREA(14, floats, float) \
    AREA(15, plane_triangles, uint32_t) AREA(16, plane_floats, float) AREA(17, plane_words, uint32_t) AREA(18, plane_edges, float)

#define BIV_FIELD(i, name, type) type *name;
struct biv_work {
    BIV_WORK(BIV_FIELD)
    size_t lens[BIV_AREAS_LENT]; /* of the areas, then of the output */
};
#undef BIV_FIELD

/* Every area begins at a multiple of this, which suits the elements of all of them. */
#define BIV_ALIGNMENT 8

static inline size_t biv_area_bytes(size_t len, size_t element)
{
    return (len * element + BIV_ALIGNMENT - 1) / BIV_ALIGNMENT * BIV_ALIGNMENT;
}

/* The bytes of a block for so many triples and candidates, wherever it begins; 0 where no scene has so many triples. */
static inline size_t biv_block_size(size_t triples, uint32_t c)
{
    size_t lens[BIV_AREAS_LENT];
    size_t size = BIV_ALIGNMENT - 1; /* the block may begin anywhere */
    if (!biv_area_lengths(triples, c, lens))
        return 0;
#define BIV_SIZE(i, name, type) size += biv_area_bytes(lens[i], sizeof(type));
    BIV_WORK(BIV_SIZE)
#undef BIV_SIZE
    return size;
}

/* Carves the areas from a block. False where it is too short: all areas then have the length 0, which a query refuses. */
static inline bool biv_carve(void *block, size_t size, size_t triples, uint32_t c, struct biv_work *work)
{
    static uint64_t nowhere; /* what a slice of no elements points to */
    size_t need = biv_block_size(triples, c);
    bool fits = block != NULL && need != 0 && need <= size;
    uintptr_t at = fits ? ((uintptr_t)block + BIV_ALIGNMENT - 1) / BIV_ALIGNMENT * BIV_ALIGNMENT : (uintptr_t)&nowhere;
    memset(work->lens, 0, sizeof work->lens);
    if (fits)
        (void)biv_area_lengths(triples, c, work->lens);
#define BIV_CUT(i, name, type) \
    work->name = (type *)at; \
    at += biv_area_bytes(work->lens[i], sizeof(type));
    BIV_WORK(BIV_CUT)
#undef BIV_CUT
    return fits;
}

/* ---- what a query will cost, before a booth is hung */

struct biv_cost {
    uint32_t counts[BIV_MOST_ORDER]; /* images of each order from 1 to 8 that are visited */
    uint32_t candidates;             /* their sum, images: room for so many is never refused with BIV_CANDIDATES; BIV_MOST_IMAGES: the search will stop there */
    uint64_t rays;                   /* traced, at most */
    uint64_t words;                  /* of 4 bytes, of the work areas for the triples and so many candidates */
};

/* The forecast for a crossing limit (1 to 32), planes (1 to 256), first of which the source does not lie on, an order (1 to 8) and whole triples (at most 4,096). Answers 0, or
 * BIV_FORECAST, and then all of cost is 0. A block for it has biv_block_size(triples, cost->candidates) bytes. */
static inline uint32_t biv_forecast(uint32_t crossing_limit, uint32_t planes, uint32_t first, uint32_t order, uint32_t triples, struct biv_cost *cost)
{
    uint64_t found[3] = {0, 0, 0};
    uint32_t refusal = biv_query_cost(crossing_limit, planes, first, order, triples, cost->counts, found);
    cost->candidates = (uint32_t)found[0];
    cost->rays = found[1];
    cost->words = found[2];
    return refusal;
}

/* ---- the calls of a station */

static inline const void *biv_part(const void *part)
{
    static const uint64_t nothing = 0;
    return part != NULL ? part : (const void *)&nothing;
}

/* The settings as the archive takes them. */
struct biv_numbers {
    uint32_t counts[BIV_SETTING_COUNTS];
    float floats[BIV_SETTING_FLOATS];
};

static inline struct biv_numbers biv_numbers_of(const struct biv_settings *settings)
{
    const struct biv_distance_model *m = &settings->distance_model;
    const struct biv_numbers n = {{settings->max_reflection_order, settings->max_reflections, settings->max_reflection_planes,
                                   settings->plane_merge ? 1u : 0u, m->curve, settings->crossing_limit, settings->air[0], settings->air[1],
                                   settings->air[2], settings->air[3], settings->air[4], settings->air[5], settings->air[6], settings->air[7]},
                                  {settings->reflection_edge_fade, settings->max_reflection_distance, settings->temperature_celsius, settings->sample_rate,
                                   settings->plane_merge_cos, settings->plane_merge_offset, settings->plane_buried_distance, m->reference_distance,
                                   m->rolloff_factor, m->min_distance, m->max_distance, settings->probe_radius}};
    return n;
}

/* A query: the packet of taps stands in the first answer->bytes of out. Answers the refusal or 0. Source and listener are in metres. block has
 * biv_block_size(biv_triples(scene), c) bytes or more, out BIV_OUTPUT_BYTES or more: less is refused with BIV_AREAS. separated says that a wall
 * stands between source and listener, so that nothing is heard. The block's areas are zero after a result and the refusals 6 and 7, and as they were
 * after 1 to 5.
 *
 * c is the candidate room, 0 to 250,000: all paths that pass must find room, not just those that are sent. A candidate takes 88 bytes, which each call
 * reads to leave them zero: 250,000 cost 22 MB and some 0.3 ms a call. A plain booth of six walls has 62 at order 3 and 340 at order 8; the
 * program booth lends 4,096. Room for the candidates of biv_forecast is never refused with BIV_CANDIDATES.
 *
 * block and out may begin anywhere. Neither may overlap the other, answer, or anything else that the call is given. block may be NULL, and out with
 * out_len 0: nothing is read or written there, and the call is refused with BIV_AREAS or a lower one. No other of its pointers may be NULL. */
static inline uint32_t biv_trace(const struct biv_settings *settings, uint32_t c, const struct biv_scene *scene, const float source[3],
                                 const float listener[3], bool separated, void *block, size_t size, uint8_t *out, size_t out_len,
                                 struct biv_answer *answer)
{
    const struct biv_numbers n = biv_numbers_of(settings);
    struct biv_work w;
    size_t found[4] = {0, 0, 0, 0};
    uint32_t refusal;
    (void)biv_carve(block, size, biv_triples(scene), c, &w); /* what is too short is refused */
    refusal = biv_trace_early_reflections(
        w.triangles, w.lens[0], w.handles, w.lens[1], w.tree, w.lens[2], w.nodes, w.lens[3], w.leaf_order, w.lens[4], w.keys, w.lens[5], w.low_keys, w.lens[6],
        w.words, w.lens[7], w.scratch, w.lens[8], w.index, w.lens[9], w.numbers, w.lens[10], w.adjacency, w.lens[11], w.queue, w.lens[12],
        w.offsets, w.lens[13], w.floats, w.lens[14], w.plane_triangles, w.lens[15], w.plane_floats, w.lens[16], w.plane_words, w.lens[17], w.plane_edges, w.lens[18],
        out, out_len, found, n.counts, n.floats, c,
        (const uint32_t *)biv_part(scene->meshes), scene->meshes_len, (const float *)biv_part(scene->transforms), scene->transforms_len,
        (const float *)biv_part(scene->positions), scene->positions_len, (const uint32_t *)biv_part(scene->indices), scene->indices_len,
        (const float *)biv_part(scene->materials), scene->materials_len, scene->rows, source, listener, separated);
    answer->count = found[0];
    answer->images = (uint32_t)found[1];
    answer->rays = (uint32_t)found[2];
    answer->bytes = found[3];
    return refusal;
}

/* Reads a packet: its taps, best first, and its counts. Answers the refusal (8 to 11) or 0. Past the last tap read, and after a refusal, taps is as
 * it was; after a refusal the counts are 0. bytes may begin anywhere, overlap taps, which are written last, and be NULL with bytes_len 0, which is refused with
 * BIV_BYTES. The words of 1,024 taps are kept on the stack meanwhile, 57 KB, here and in biv_write. */
static inline uint32_t biv_read(const uint8_t *bytes, size_t bytes_len, struct biv_tap taps[BIV_MOST_TAPS], struct biv_answer *answer)
{
    uint32_t words[14 * BIV_MOST_TAPS];
    size_t found[3] = {0, 0, 0};
    uint32_t refusal = biv_packet_read((const uint8_t *)biv_part(bytes), bytes_len, words, 14 * BIV_MOST_TAPS, found);
    if (refusal == BIV_NO_REFUSAL)
        memcpy(taps, words, found[0] * sizeof(struct biv_tap));
    answer->count = found[0];
    answer->images = (uint32_t)found[1];
    answer->rays = (uint32_t)found[2];
    answer->bytes = refusal == BIV_NO_REFUSAL ? bytes_len : 0;
    return refusal;
}

/* Writes the packet of answer->count taps with answer's images and rays. Answers the refusal (5, 9 to 11) or 0; answer->bytes gets the packet's
 * length, 0 after a refusal, which writes nothing. out has BIV_OUTPUT_BYTES or more, less is refused with BIV_AREAS; it may be NULL with out_len 0, and begin
 * anywhere. taps is aligned for its elements, and may overlap out, since it is copied first; it may be NULL where there are none, and is refused with BIV_AREAS where
 * answer->count is above 0. */
static inline uint32_t biv_write(const struct biv_tap *taps, struct biv_answer *answer, uint8_t *out, size_t out_len)
{
    uint32_t words[14 * BIV_MOST_TAPS] = {0};
    size_t found[1] = {0};
    uint32_t refusal;
    answer->bytes = 0;
    if (taps == NULL && answer->count > 0)
        return BIV_AREAS;
    if (answer->count <= BIV_MOST_TAPS) /* more is refused */
        memcpy(words, biv_part(taps), answer->count * sizeof(struct biv_tap));
    refusal = biv_packet_write(answer->count, answer->images, answer->rays, words, 14 * BIV_MOST_TAPS, out, out_len, found);
    answer->bytes = found[0];
    return refusal;
}

/* The walls of the image with that number, as a tap has it. on has a byte for each plane of the query, 1 where the source lies on it, else 0; order is the
 * query's, 1 to 8. Answers BIV_NO_IMAGE, with no walls, or 0. */
static inline uint32_t biv_find_walls(const uint8_t *on, size_t planes, uint32_t order, uint32_t number, struct biv_walls_met *walls)
{
    size_t found[1] = {0};
    uint32_t refusal = biv_walls(planes <= BIV_MOST_PLANES ? (uint32_t)planes : BIV_MOST_PLANES + 1, order, (const uint8_t *)biv_part(on), planes, number,
                                 walls->planes, found);
    walls->len = found[0];
    return refusal;
}

/* The planes of a scene as a query with the same settings has them, the count in *count, 0 after a refusal (1 to 6), which is answered, or 0. planes is
 * as it was behind them. c and block are those of biv_trace; the block holds anything then, which the next call does not mind. */
static inline uint32_t biv_scene_planes(const struct biv_settings *settings, uint32_t c, const struct biv_scene *scene, const float source[3], void *block,
                                        size_t size, struct biv_plane planes[BIV_MOST_PLANES], size_t *count)
{
    const struct biv_numbers n = biv_numbers_of(settings);
    struct biv_work w;
    uint8_t on[BIV_MOST_PLANES] = {0};
    size_t found[1] = {0};
    uint32_t refusal;
    (void)biv_carve(block, size, biv_triples(scene), c, &w); /* what is too short is refused */
    refusal = biv_planes(
        w.triangles, w.lens[0], w.handles, w.lens[1], w.tree, w.lens[2], w.nodes, w.lens[3], w.leaf_order, w.lens[4], w.keys, w.lens[5], w.low_keys, w.lens[6],
        w.words, w.lens[7], w.scratch, w.lens[8], w.index, w.lens[9], w.numbers, w.lens[10], w.adjacency, w.lens[11], w.queue, w.lens[12],
        w.offsets, w.lens[13], w.floats, w.lens[14], w.plane_triangles, w.lens[15], w.plane_floats, w.lens[16], w.plane_words, w.lens[17], w.plane_edges, w.lens[18],
        on, found, n.counts, n.floats, c,
        (const uint32_t *)biv_part(scene->meshes), scene->meshes_len, (const float *)biv_part(scene->transforms), scene->transforms_len,
        (const float *)biv_part(scene->positions), scene->positions_len, (const uint32_t *)biv_part(scene->indices), scene->indices_len,
        (const float *)biv_part(scene->materials), scene->materials_len, scene->rows, source);
    for (size_t p = 0; p < found[0]; p++) {
        const float *f = w.plane_floats + 12 * p;
        memcpy(planes[p].normal, f, sizeof planes[p].normal);
        planes[p].offset = f[3];
        planes[p].area = f[11];
        planes[p].source_on = on[p] != 0;
    }
    *count = found[0];
    return refusal;
}

/* biv_find_walls with the planes of biv_scene_planes: the walls of a tap by its number. settings are the query's. */
static inline uint32_t biv_walls_of(const struct biv_settings *settings, const struct biv_plane *planes, size_t count, uint32_t number, struct biv_walls_met *walls)
{
    uint32_t order = settings->max_reflection_order < BIV_MOST_ORDER ? settings->max_reflection_order : BIV_MOST_ORDER;
    uint8_t on[BIV_MOST_PLANES] = {0};
    for (size_t p = 0; p < count && p < BIV_MOST_PLANES; p++)
        on[p] = planes[p].source_on ? 1 : 0;
    return biv_find_walls(on, count <= BIV_MOST_PLANES ? count : 0, order, number, walls); /* no planes are refused, as too many are */
}

#ifdef __cplusplus
}
#endif

#endif
