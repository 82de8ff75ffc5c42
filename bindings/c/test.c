/* The calls of bivelondry.h: case A, every refusal, the block, the packet, the planes, the walls, the probes, the air, the forecast. C99 and C++17. Ends with `N checks, 0 failed`. */
#include "case_a.h"
#include <math.h>
#include <stdio.h>
#include <stdlib.h>

static unsigned checks, failed;

#define CHECK(held) \
    do { \
        checks++; \
        if (!(held)) { \
            failed++; \
            fprintf(stderr, "test.c:%d: not so: %s\n", __LINE__, #held); \
        } \
    } while (0)

/* What one query is given, so that a test changes one thing. */
struct query {
    struct biv_settings settings;
    struct biv_scene scene;
    uint32_t c;
    float source[3], listener[3];
    bool separated;
    size_t size, out_len;
};

static struct query case_a(void)
{
    struct query q;
    q.settings = case_a_settings();
    q.scene = case_a_scene();
    q.c = case_a_c;
    memcpy(q.source, case_a_source, sizeof q.source);
    memcpy(q.listener, case_a_listener, sizeof q.listener);
    q.separated = false;
    q.size = biv_block_size(biv_triples(&q.scene), q.c);
    q.out_len = BIV_OUTPUT_BYTES;
    return q;
}

static uint8_t out[BIV_OUTPUT_BYTES];
static struct biv_answer answer;

/* The query in a block of just its size, so that a byte past it is an error that a sanitizer sees. */
static uint32_t trace(const struct query *q)
{
    void *block = calloc(1, q->size > 0 ? q->size : 1);
    uint8_t *bytes = (uint8_t *)malloc(q->out_len > 0 ? q->out_len : 1);
    uint32_t refusal;
    if (block == NULL || bytes == NULL) {
        fprintf(stderr, "test: no memory\n");
        exit(1);
    }
    refusal = biv_trace(&q->settings, q->c, &q->scene, q->source, q->listener, q->separated, block, q->size, bytes, q->out_len, &answer);
    if (refusal == BIV_NO_REFUSAL)
        memcpy(out, bytes, answer.bytes);
    free(block);
    free(bytes);
    return refusal;
}

static bool nothing(void)
{
    return answer.count == 0 && answer.images == 0 && answer.rays == 0 && answer.bytes == 0;
}

/* Those of docs/BEHAVIOUR.md, and a temperature that no query takes. */
static void test_speeds(void)
{
    CHECK(biv_speed_of_sound(-20.0f) == 318.927032f && biv_speed_of_sound(0.0f) == 331.285889f);
    CHECK(biv_speed_of_sound(20.0f) == 343.2f && biv_speed_of_sound(50.0f) == 360.333313f);
    CHECK(isnan(biv_speed_of_sound(-300.0f)));
}

static void test_case_a(void)
{
    struct query q = case_a();
    static struct biv_tap taps[BIV_MOST_TAPS];
    CHECK(trace(&q) == BIV_NO_REFUSAL);
    CHECK(answer.count == 1 && answer.images == 1 && answer.rays == 36 && answer.bytes == 10 + 54);
    CHECK(biv_read(out, answer.bytes, taps, &answer) == BIV_NO_REFUSAL);
    CHECK(answer.count == 1 && taps[0].order == 1 && taps[0].number == 1 && taps[0].delay_samples == 699.300659f);
    CHECK(fabsf(taps[0].direction[0] + 0.6f) < 1e-6f && fabsf(taps[0].direction[1] + 0.8f) < 1e-6f && taps[0].direction[2] == 0.0f);
    CHECK(fabsf(taps[0].gains[0] - 0.1f) < 1e-6f && taps[0].gains[7] == taps[0].gains[0]);
    q.settings.temperature_celsius = 0.0f; /* colder air is slower */
    CHECK(trace(&q) == BIV_NO_REFUSAL && biv_read(out, answer.bytes, taps, &answer) == BIV_NO_REFUSAL);
    CHECK(fabsf(taps[0].delay_samples - 5.0f * 48000.0f / biv_speed_of_sound(0.0f)) < 0.01f && taps[0].delay_samples > 720.0f);
    q = case_a();
    q.source[1] = 0.00005f;
    CHECK(trace(&q) == BIV_NO_REFUSAL && answer.images == 0);
    q.source[1] = 0.0001f;
    CHECK(trace(&q) == BIV_NO_REFUSAL && answer.images == 1);
    q = case_a();
    q.separated = true;
    CHECK(trace(&q) == BIV_NO_REFUSAL && answer.images == 0 && answer.bytes == 10);
    q = case_a();
    q.listener[2] = NAN;
    CHECK(trace(&q) == BIV_NO_REFUSAL && answer.images == 0);
}

static void test_query_refusals(void)
{
    static const float nan_corner[12] = {-4, 0, NAN, 4, 0, -4, 4, 0, 4, -4, 0, 4};
    static const uint32_t handle[3] = {4, 6, 1}, short_mesh[3] = {3, 6, 0};
    struct query q = case_a();
    q.settings.temperature_celsius = 50.0000038f; /* the float after 50 */
    CHECK(trace(&q) == BIV_SETTINGS && nothing());
    q.settings.temperature_celsius = -20.0000019f;
    CHECK(trace(&q) == BIV_SETTINGS && nothing());
    q.settings.temperature_celsius = NAN;
    CHECK(trace(&q) == BIV_SETTINGS && nothing());
    q = case_a();
    q.settings.crossing_limit = 0;
    CHECK(trace(&q) == BIV_SETTINGS && nothing());
    q.settings.crossing_limit = BIV_MOST_CROSSINGS + 1;
    CHECK(trace(&q) == BIV_SETTINGS && nothing());
    q = case_a();
    q.settings.probe_radius = NAN;
    CHECK(trace(&q) == BIV_SETTINGS && nothing());
    q.settings.probe_radius = 1.00000012f; /* the float after 1 */
    CHECK(trace(&q) == BIV_SETTINGS && nothing());
    for (int k = 0; k < BIV_BANDS; k++) {
        q = case_a();
        q.settings.air[k] = 1000001;
        CHECK(trace(&q) == BIV_SETTINGS && nothing());
        q.settings.air[k] = 1000000;
        CHECK(trace(&q) == BIV_NO_REFUSAL && answer.count == 1);
    }
    q = case_a();
    q.settings.distance_model.curve = 2;
    CHECK(trace(&q) == BIV_SETTINGS && nothing());
    q = case_a();
    q.c = BIV_MOST_CANDIDATES + 1; /* too large for its block too: the lower refusal is answered */
    CHECK(trace(&q) == BIV_SETTINGS && nothing());
    q = case_a();
    q.scene.meshes = short_mesh;
    CHECK(trace(&q) == BIV_LENGTHS && nothing());
    q = case_a();
    q.scene.materials_len = 15;
    CHECK(trace(&q) == BIV_LENGTHS && nothing());
    q = case_a();
    q.scene.meshes = handle;
    CHECK(trace(&q) == BIV_MATERIAL && nothing());
    q = case_a();
    q.size--;
    CHECK(trace(&q) == BIV_AREAS && nothing());
    q = case_a();
    q.size = 0;
    CHECK(trace(&q) == BIV_AREAS && nothing());
    q = case_a();
    q.out_len--;
    CHECK(trace(&q) == BIV_AREAS && nothing());
    q = case_a();
    q.scene.positions = nan_corner;
    CHECK(trace(&q) == BIV_FAR && nothing());
    q = case_a();
    q.c = 0;
    CHECK(trace(&q) == BIV_CANDIDATES && nothing());
}

/* One triple more than a scene may have, of vertices that are not there. */
static void test_triples(void)
{
    enum { INDICES = 3 * (BIV_MOST_TRIPLES + 1) };
    static uint32_t indices[INDICES];
    uint32_t meshes[3] = {0, INDICES, 0};
    struct query q = case_a();
    q.scene.meshes = meshes;
    q.scene.positions = NULL;
    q.scene.positions_len = 0;
    q.scene.indices = indices;
    q.scene.indices_len = INDICES;
    CHECK(biv_block_size(biv_triples(&q.scene), q.c) == 0);
    CHECK(trace(&q) == BIV_TRIANGLES && nothing());
    meshes[1] = q.scene.indices_len = INDICES - 3;
    q.size = biv_block_size(biv_triples(&q.scene), q.c);
    CHECK(q.size > 0 && trace(&q) == BIV_NO_REFUSAL && answer.count == 0 && answer.bytes == 10);
}

/* No meshes at all. */
static void test_nothing(void)
{
    struct biv_scene none = {NULL, 0, NULL, 0, NULL, 0, NULL, 0, NULL, 0, 0};
    struct query q = case_a();
    q.scene = none;
    q.size = biv_block_size(0, q.c);
    CHECK(trace(&q) == BIV_NO_REFUSAL && answer.count == 0 && answer.images == 0 && answer.bytes == 10);
}

/* The areas lie within the block, aligned, one behind the other, with the least lengths; whatever the block's own alignment. */
static void test_block(size_t triples, uint32_t c, size_t offset)
{
    size_t size = biv_block_size(triples, c), lens[BIV_AREAS_LENT];
    uint8_t *block = (uint8_t *)malloc(size + offset);
    struct biv_work w;
    uintptr_t at = (uintptr_t)block + offset, end = at + size;
    if (block == NULL) {
        fprintf(stderr, "test: no memory\n");
        exit(1);
    }
    CHECK(biv_area_lengths(triples, c, lens));
    CHECK(lens[0] == 23 * triples && lens[14] == 12 * triples + 13 * (size_t)c && lens[19] == BIV_OUTPUT_BYTES);
    CHECK(biv_carve(block + offset, size, triples, c, &w));
#define ONE(i, name, type) \
    CHECK(w.lens[i] == lens[i]); \
    CHECK((uintptr_t)w.name % sizeof(type) == 0); \
    CHECK((uintptr_t)w.name >= at); \
    at = (uintptr_t)w.name + w.lens[i] * sizeof(type); \
    CHECK(at <= end); \
    memset(w.name, 0x5a, w.lens[i] * sizeof(type)); /* a sanitizer sees what is not the block's */
    BIV_WORK(ONE)
#undef ONE
    CHECK(!biv_carve(block + offset, size - 1, triples, c, &w) && w.lens[0] == 0 && w.lens[18] == 0);
    CHECK(!biv_carve(NULL, size, triples, c, &w) && w.lens[0] == 0);
    free(block);
}

static void test_packet(void)
{
    struct query q = case_a();
    static struct biv_tap taps[BIV_MOST_TAPS], again[BIV_MOST_TAPS];
    struct biv_answer read, written;
    static uint8_t copy[BIV_OUTPUT_BYTES];
    memset(taps, 0x7e, sizeof taps);
    memset(again, 0x7e, sizeof again);
    CHECK(trace(&q) == BIV_NO_REFUSAL);
    CHECK(biv_read(out, answer.bytes, taps, &read) == BIV_NO_REFUSAL);
    written = read;
    CHECK(biv_write(taps, &written, copy, sizeof copy) == BIV_NO_REFUSAL);
    CHECK(written.bytes == answer.bytes && memcmp(copy, out, answer.bytes) == 0);
    CHECK(memcmp(taps + 1, again + 1, sizeof taps - sizeof taps[0]) == 0); /* past the last tap read nothing is written */
    CHECK(biv_read(out, answer.bytes - 1, again, &read) == BIV_BYTES && read.count == 0);
    CHECK(biv_read(NULL, 0, again, &read) == BIV_BYTES);
    CHECK(memcmp(taps + 1, again, sizeof taps[0]) == 0); /* nor after a refusal */
    out[11] = 9; /* the order of the first tap */
    CHECK(biv_read(out, answer.bytes, again, &read) == BIV_COUNTS);
    written.count = BIV_MOST_TAPS + 1;
    CHECK(biv_write(taps, &written, copy, sizeof copy) == BIV_COUNTS && written.bytes == 0);
    written.count = 1;
    CHECK(biv_write(taps, &written, copy, sizeof copy - 1) == BIV_AREAS);
    CHECK(biv_write(NULL, &written, copy, sizeof copy) == BIV_AREAS && written.bytes == 0);
    taps[0].delay_samples = 0.0f;
    CHECK(biv_write(taps, &written, copy, sizeof copy) == BIV_NUMBERS);
    taps[0].delay_samples = 750.0f;
    taps[1] = taps[0];
    written.count = written.images = 2;
    CHECK(biv_write(taps, &written, copy, sizeof copy) == BIV_TAP_ORDER);
    taps[1].number = 2;
    CHECK(biv_write(taps, &written, copy, sizeof copy) == BIV_NO_REFUSAL);
}

/* The count has two bytes, the lower first; a packet with a count of one byte, as it was before, is refused, empty or not. */
static void test_count(void)
{
    static const size_t counts[7] = {64, 65, 255, 256, 257, BIV_MOST_TAPS - 1, BIV_MOST_TAPS};
    static struct biv_tap taps[BIV_MOST_TAPS], again[BIV_MOST_TAPS];
    static uint8_t packet[BIV_OUTPUT_BYTES];
    struct biv_answer written, read;
    for (uint32_t k = 0; k < BIV_MOST_TAPS; k++) {
        const struct biv_tap tap = {1 + k % 8, k + 1, {0, -1, 0}, 750, {1, 1, 1, 1, 1, 1, 1, 1}};
        taps[k] = tap;
    }
    for (int k = 0; k < 7; k++) {
        const size_t n = counts[k];
        written.count = n;
        written.images = written.rays = BIV_MOST_TAPS;
        CHECK(biv_write(taps, &written, packet, sizeof packet) == BIV_NO_REFUSAL && written.bytes == 10 + 54 * n);
        CHECK(packet[0] == n % 256 && packet[1] == n / 256);
        CHECK(biv_read(packet, written.bytes, again, &read) == BIV_NO_REFUSAL && read.count == n && memcmp(taps, again, n * sizeof *taps) == 0);
        packet[0] ^= 1;
        CHECK(biv_read(packet, written.bytes, again, &read) == BIV_BYTES);
        packet[0] ^= 1;
        memmove(packet + 1, packet + 2, written.bytes - 2);
        CHECK(biv_read(packet, written.bytes - 1, again, &read) == BIV_BYTES);
    }
    memset(packet, 0, 10);
    CHECK(biv_read(packet, 9, again, &read) == BIV_BYTES && biv_read(packet, 10, again, &read) == BIV_NO_REFUSAL && read.count == 0);
    packet[0] = packet[1] = 0xff; /* bytes that are missing come before a count that is too large */
    CHECK(biv_read(packet, 10, again, &read) == BIV_BYTES);
}

static bool walls_refused(const uint8_t *on, size_t planes, uint32_t order, uint32_t number)
{
    static const uint8_t zeros[BIV_MOST_ORDER] = {0};
    struct biv_walls_met walls;
    memset(&walls, 0x7e, sizeof walls);
    return biv_find_walls(on, planes, order, number, &walls) == BIV_NO_IMAGE && walls.len == 0 && memcmp(walls.planes, zeros, sizeof zeros) == 0;
}

static void test_walls(void)
{
    static const uint8_t off[BIV_MOST_PLANES + 1] = {0}, all[6] = {1, 1, 1, 1, 1, 1}, one[6] = {1, 0, 0, 0, 0, 0}, two[6] = {0, 2, 0, 0, 0, 0};
    /* a number, and its walls with the zeros behind them */
    static const struct {
        const uint8_t *on;
        size_t planes;
        uint32_t order, number;
        struct biv_walls_met walls;
    } known[] = {
        {off, 6, 3, 2, {2, {0, 1}}},
        {off, 6, 3, 32, {1, {1}}},
        {off, 6, 3, 186, {3, {5, 4, 5}}},
        {one, 6, 3, 2, {2, {1, 0}}},
        {off, 6, 8, BIV_MOST_IMAGES, {8, {2, 3, 4, 5, 4, 5, 4, 5}}},
        {off, BIV_MOST_PLANES, 8, BIV_MOST_IMAGES, {8, {0, 1, 0, 1, 0, 4, 212, 133}}},
        {off, BIV_MOST_PLANES, 2, 65536, {2, {255, 254}}},
        {off, 1, 8, 1, {1, {0}}},
    };
    uint8_t walls[BIV_MOST_ORDER];
    size_t found[1];
    for (size_t k = 0; k < sizeof known / sizeof known[0]; k++) {
        struct biv_walls_met met;
        memset(&met, 0x7e, sizeof met);
        CHECK(biv_find_walls(known[k].on, known[k].planes, known[k].order, known[k].number, &met) == BIV_NO_REFUSAL);
        CHECK(met.len == known[k].walls.len && memcmp(met.planes, known[k].walls.planes, sizeof met.planes) == 0);
    }
    CHECK(walls_refused(off, 1, 8, 2) && walls_refused(off, 6, 3, 187) && walls_refused(off, 6, 8, BIV_MOST_IMAGES + 1));
    CHECK(walls_refused(off, 6, 3, 0) && walls_refused(off, 6, 0, 1) && walls_refused(off, 6, 9, 1) && walls_refused(all, 6, 8, 1));
    CHECK(walls_refused(two, 6, 3, 1) && walls_refused(NULL, 0, 3, 1) && walls_refused(off, BIV_MOST_PLANES + 1, 3, 1));
    CHECK(biv_walls(6, 3, off, 5, 1, walls, found) == BIV_NO_IMAGE && biv_walls(5, 3, off, 6, 1, walls, found) == BIV_NO_IMAGE && found[0] == 0);
}

/* A room of 8 by 3 by 6 m, each wall a mesh of its own, and the corners of its walls. */
static const float room_corners[8][3] = {{0, 0, 0}, {8, 0, 0}, {8, 3, 0}, {0, 3, 0}, {0, 0, 6}, {8, 0, 6}, {8, 3, 6}, {0, 3, 6}};
static const uint32_t room_walls[6][4] = {{0, 1, 2, 3}, {4, 5, 6, 7}, {0, 3, 7, 4}, {1, 2, 6, 5}, {0, 1, 5, 4}, {3, 2, 6, 7}};
static uint32_t room_meshes[6][3], room_indices[6][6];
static float room_transforms[6][16], room_positions[6][4][3], room_materials[16];

static struct query room(void)
{
    static const uint32_t corners[6] = {0, 1, 2, 0, 2, 3};
    static const float source[3] = {2, 1.2f, 2.5f}, listener[3] = {6, 1.7f, 3.4f};
    const struct biv_scene scene = {room_meshes[0], 18, room_transforms[0], 96, room_positions[0][0], 72, room_indices[0], 36, room_materials, 16, 1};
    struct query q = case_a();
    for (size_t m = 0; m < 6; m++) {
        room_meshes[m][0] = 4;
        room_meshes[m][1] = 6;
        memcpy(room_indices[m], corners, sizeof corners);
        memcpy(room_transforms[m], case_a_transforms, sizeof room_transforms[m]);
        for (size_t k = 0; k < 4; k++)
            memcpy(room_positions[m][k], room_corners[room_walls[m][k]], sizeof room_positions[m][k]);
    }
    for (size_t b = 0; b < BIV_BANDS; b++)
        room_materials[b] = 0.3f;
    q.scene = scene;
    q.settings = biv_default_settings();
    q.settings.max_reflections = BIV_MOST_TAPS;
    q.c = 256;
    q.size = biv_block_size(biv_triples(&q.scene), q.c);
    memcpy(q.source, source, sizeof q.source);
    memcpy(q.listener, listener, sizeof q.listener);
    return q;
}

static struct biv_plane planes[BIV_MOST_PLANES];
static size_t plane_count;

static uint32_t find_planes(const struct query *q)
{
    void *block = calloc(1, q->size > 0 ? q->size : 1);
    uint32_t refusal;
    if (block == NULL) {
        fprintf(stderr, "test: no memory\n");
        exit(1);
    }
    refusal = biv_scene_planes(&q->settings, q->c, &q->scene, q->source, block, q->size, planes, &plane_count);
    free(block);
    return refusal;
}

static void test_planes(void)
{
    struct query q = case_a();
    struct biv_walls_met walls;
    CHECK(find_planes(&q) == BIV_NO_REFUSAL && plane_count == 1);
    CHECK(planes[0].normal[0] == 0.0f && fabsf(planes[0].normal[1]) == 1.0f && planes[0].normal[2] == 0.0f && planes[0].offset == 0.0f);
    CHECK(planes[0].area == 64.0f && !planes[0].source_on);
    q.settings.max_reflection_order = BIV_MOST_ORDER + 1;
    CHECK(biv_walls_of(&q.settings, planes, 1, 1, &walls) == BIV_NO_REFUSAL && walls.len == 1 && walls.planes[0] == 0);
    CHECK(biv_walls_of(&q.settings, planes, BIV_MOST_PLANES + 1, 1, &walls) == BIV_NO_IMAGE);
    q.source[1] = 0.00005f;
    CHECK(find_planes(&q) == BIV_NO_REFUSAL && plane_count == 1 && planes[0].source_on);
    CHECK(biv_walls_of(&q.settings, planes, 1, 1, &walls) == BIV_NO_IMAGE && walls.len == 0);
    q = case_a();
    q.settings.distance_model.curve = 2;
    CHECK(find_planes(&q) == BIV_SETTINGS && plane_count == 0);
    q = case_a();
    q.scene.materials_len = 15;
    CHECK(find_planes(&q) == BIV_LENGTHS && plane_count == 0);
    q = case_a();
    q.size--;
    CHECK(find_planes(&q) == BIV_AREAS && plane_count == 0);
}

/* The source mirrored in the walls of a tap, one after the other, is the image: the tap's delay and direction are those of its distance. */
static void test_tap_walls(void)
{
    struct query q = room();
    static struct biv_tap taps[BIV_MOST_TAPS];
    CHECK(trace(&q) == BIV_NO_REFUSAL && answer.images == 186 && answer.count > 10);
    CHECK(biv_read(out, answer.bytes, taps, &answer) == BIV_NO_REFUSAL);
    CHECK(find_planes(&q) == BIV_NO_REFUSAL && plane_count == 6);
    for (size_t i = 0; i < answer.count; i++) {
        struct biv_walls_met walls;
        float image[3], length = 0.0f;
        CHECK(biv_walls_of(&q.settings, planes, plane_count, taps[i].number, &walls) == BIV_NO_REFUSAL && walls.len == taps[i].order);
        memcpy(image, q.source, sizeof image);
        for (size_t k = 0; k < walls.len; k++) {
            const struct biv_plane *p = &planes[walls.planes[k]];
            float d = p->normal[0] * image[0] + p->normal[1] * image[1] + p->normal[2] * image[2] - p->offset;
            for (size_t x = 0; x < 3; x++)
                image[x] -= 2.0f * d * p->normal[x];
        }
        for (size_t x = 0; x < 3; x++)
            length += (image[x] - q.listener[x]) * (image[x] - q.listener[x]);
        length = sqrtf(length);
        CHECK(fabsf(length / biv_speed_of_sound(q.settings.temperature_celsius) * q.settings.sample_rate - taps[i].delay_samples) < 0.05f);
        for (size_t x = 0; x < 3; x++)
            CHECK(fabsf((image[x] - q.listener[x]) / length - taps[i].direction[x]) < 1e-4f);
    }
}

/* A room whose walls take nothing has more than 64 echoes at order 4; a list of 64 is the first of them. */
static void test_long_list(void)
{
    static uint8_t all[BIV_OUTPUT_BYTES];
    struct query q = room();
    struct biv_answer longest;
    for (size_t b = 0; b < BIV_BANDS; b++)
        room_materials[b] = 0.0f;
    q.settings.max_reflection_order = 4;
    q.settings.max_reflection_distance = 1000.0f;
    CHECK(trace(&q) == BIV_NO_REFUSAL && answer.images == 936 && answer.count > 100 && answer.bytes == 10 + 54 * answer.count);
    CHECK(out[0] == answer.count % 256 && out[1] == answer.count / 256);
    longest = answer;
    memcpy(all, out, answer.bytes);
    q.settings.max_reflections = 64;
    CHECK(trace(&q) == BIV_NO_REFUSAL && answer.count == 64 && answer.images == longest.images && answer.rays == longest.rays);
    CHECK(out[0] == 64 && out[1] == 0 && memcmp(out + 2, all + 2, answer.bytes - 2) == 0);
}

/* 5 m at 0.1 dB a metre are ten steps of 0.05 dB, of which the table leaves 15,838,713 parts of 2^24. Each band has its own. */
static void test_air(void)
{
    static struct biv_tap taps[BIV_MOST_TAPS];
    struct query q = case_a();
    q.settings.air[3] = 100000;
    q.settings.air[6] = 1000000;
    CHECK(trace(&q) == BIV_NO_REFUSAL && biv_read(out, answer.bytes, taps, &answer) == BIV_NO_REFUSAL && answer.count == 1);
    CHECK(fabsf(taps[0].gains[3] / taps[0].gains[0] - 15838713.0f / 16777216.0f) < 1e-6f && taps[0].gains[7] == taps[0].gains[0]);
    CHECK(fabsf(taps[0].gains[6] / taps[0].gains[0] - 0.56234133f) < 1e-5f);
}

/* Case A with so many sheets, which let all through, across the first half of the way from the source to the floor. */
enum { MOST_SHEETS = 40 };

static struct query curtain(uint32_t sheets, float least_z)
{
    static uint32_t meshes[6], indices[6 * (MOST_SHEETS + 1)];
    static float transforms[32], positions[12 * (MOST_SHEETS + 1)], materials[32];
    struct query q = case_a();
    memcpy(meshes, q.scene.meshes, 3 * sizeof *meshes);
    memcpy(indices, q.scene.indices, 6 * sizeof *indices);
    memcpy(positions, q.scene.positions, 12 * sizeof *positions);
    memcpy(materials, q.scene.materials, 16 * sizeof *materials);
    for (int k = 0; k < 2; k++)
        memcpy(transforms + 16 * k, q.scene.transforms, 16 * sizeof *transforms);
    meshes[3] = 4 * sheets;
    meshes[4] = 6 * sheets;
    meshes[5] = 1;
    for (uint32_t s = 0; s < sheets; s++)
        for (uint32_t k = 0; k < 4; k++) {
            float *p = positions + 12 * (s + 1) + 3 * k;
            p[0] = 0.1f + 0.01f * (float)s;
            p[1] = k < 2 ? 0.5f : 2.5f;
            p[2] = k == 0 || k == 3 ? least_z : 2.0f;
        }
    for (uint32_t s = 0; s < sheets; s++)
        for (uint32_t k = 0; k < 6; k++)
            indices[6 * (s + 1) + k] = 4 * s + case_a_indices[k];
    for (int k = 0; k < 8; k++)
        materials[24 + k] = 1.0f;
    q.scene.meshes = meshes;
    q.scene.meshes_len = 6;
    q.scene.transforms = transforms;
    q.scene.transforms_len = 32;
    q.scene.positions = positions;
    q.scene.positions_len = 12 * (size_t)(sheets + 1);
    q.scene.indices = indices;
    q.scene.indices_len = 6 * (size_t)(sheets + 1);
    q.scene.materials = materials;
    q.scene.materials_len = 32;
    q.scene.rows = 2;
    q.settings.max_reflection_planes = 1; /* the floor, the largest */
    q.size = biv_block_size(biv_triples(&q.scene), q.c);
    return q;
}

/* As many sheets as the limit pass, one more does not; and a sheet that lets nothing through, 0.05 m beside the way, is met by a bundle that is wide enough. */
static void test_probes(void)
{
    static const uint32_t limits[6] = {1, 2, 8, 9, 31, 32};
    static struct biv_tap taps[BIV_MOST_TAPS];
    float gain;
    struct query q;
    for (int k = 0; k < 6; k++) {
        uint32_t limit = limits[k];
        q = curtain(limit, -2.0f);
        q.settings.crossing_limit = limit;
        CHECK(trace(&q) == BIV_NO_REFUSAL && answer.count == 1 && answer.images == 1 && answer.rays == 9 * (limit + 4));
        q = curtain(limit + 1, -2.0f);
        q.settings.crossing_limit = limit;
        CHECK(trace(&q) == BIV_NO_REFUSAL && answer.count == 0 && answer.images == 1);
    }
    q = curtain(1, 0.05f);
    memset((void *)(q.scene.materials + 24), 0, 8 * sizeof(float));
    q.settings.probe_radius = 0.0f;
    CHECK(trace(&q) == BIV_NO_REFUSAL && answer.count == 1 && answer.rays == 36 && biv_read(out, answer.bytes, taps, &answer) == BIV_NO_REFUSAL);
    gain = taps[0].gains[0];
    q.settings.probe_radius = 1.0f;
    CHECK(trace(&q) == BIV_NO_REFUSAL && answer.count == 1 && biv_read(out, answer.bytes, taps, &answer) == BIV_NO_REFUSAL);
    CHECK(taps[0].gains[0] < 0.9f * gain && taps[0].gains[0] > 0.3f * gain);
}

static bool costs_nothing(const struct biv_cost *cost)
{
    for (int k = 0; k < BIV_MOST_ORDER; k++)
        if (cost->counts[k] != 0)
            return false;
    return cost->candidates == 0 && cost->rays == 0 && cost->words == 0;
}

/* Both ends of each limit, and a block that is as long as the forecast says but for what its alignment takes. */
static void test_forecast(void)
{
    static const uint32_t six[BIV_MOST_ORDER] = {3, 13, 64, 320, 1600, 8000, 40000, 200000}, many[BIV_MOST_ORDER] = {1, 1, 1, 1, 1, 4, 977, 249014};
    static const uint32_t refused[8][5] = {{8, 0, 0, 1, 0}, {8, 257, 1, 1, 0}, {8, 2, 2, 0, 0}, {8, 2, 2, 9, 0}, {8, 2, 3, 8, 0}, {8, 2, 2, 8, BIV_MOST_TRIPLES + 1},
                                           {0, 2, 2, 8, 0}, {BIV_MOST_CROSSINGS + 1, 2, 2, 8, 0}};
    struct biv_cost cost;
    struct query q = case_a();
    size_t size;
    for (int k = 0; k < 8; k++) {
        memset(&cost, 0x7e, sizeof cost);
        CHECK(biv_forecast(refused[k][0], refused[k][1], refused[k][2], refused[k][3], refused[k][4], &cost) == BIV_FORECAST && costs_nothing(&cost));
    }
    CHECK(biv_forecast(8, 6, 6, 8, 12, &cost) == BIV_NO_REFUSAL && memcmp(cost.counts, six, sizeof six) == 0);
    CHECK(cost.candidates == BIV_MOST_CANDIDATES && cost.rays == 354375162);
    CHECK(biv_forecast(BIV_MOST_CROSSINGS, BIV_MOST_PLANES, BIV_MOST_PLANES, BIV_MOST_ORDER, BIV_MOST_TRIPLES, &cost) == BIV_NO_REFUSAL && memcmp(cost.counts, many, sizeof many) == 0);
    size = biv_block_size(BIV_MOST_TRIPLES, cost.candidates);
    CHECK(4 * cost.words <= size && size < 4 * cost.words + 8 * BIV_AREAS_LENT);
    CHECK(biv_forecast(1, 1, 1, 3, 0, &cost) == BIV_NO_REFUSAL && cost.candidates == 1 && cost.rays == 72);
    CHECK(biv_forecast(q.settings.crossing_limit, 1, 1, 3, (uint32_t)biv_triples(&q.scene), &cost) == BIV_NO_REFUSAL && cost.candidates == 1 && cost.rays == 324);
    q.c = cost.candidates;
    CHECK(trace(&q) == BIV_NO_REFUSAL && answer.images == cost.candidates && answer.rays <= cost.rays);
}

static void test_texts(void)
{
    for (uint32_t k = 0; k <= BIV_FORECAST; k++)
        for (uint32_t j = 0; j < k; j++)
            CHECK(strcmp(biv_refusal_text(k), biv_refusal_text(j)) != 0);
}

static void test_version(void)
{
    char text[64];
    snprintf(text, sizeof text, "%d.%d.%d", BIV_VERSION_MAJOR, BIV_VERSION_MINOR, BIV_VERSION_PATCH);
    CHECK(strcmp(text, BIV_VERSION) == 0);
}

int main(void)
{
    test_version();
    test_case_a();
    test_query_refusals();
    test_triples();
    test_nothing();
    for (size_t offset = 0; offset < 9; offset++) {
        test_block(0, 0, offset);
        test_block(1, 1, offset);
        test_block(3, 7, offset);
    }
    test_block(BIV_MOST_TRIPLES, BIV_MOST_CANDIDATES, 1);
    test_packet();
    test_count();
    test_walls();
    test_planes();
    test_tap_walls();
    test_long_list();
    test_speeds();
    test_probes();
    test_air();
    test_forecast();
    test_texts();
    printf("%u checks, %u failed\n", checks, failed);
    return failed > 0;
}
