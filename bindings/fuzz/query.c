/* Fuzzes the whole call: libFuzzer, by bindings/harden.sh. An input is the words of a recorded query (crates/replay/src/main.rt), of which anything
 * may be changed. No byte past a part or an area may be touched; after the call the areas, the output and the packet must be as the contract has
 * them, and a second call, in areas that hold something else, must answer the same. */
#include "../c/recorded.h"
#include "guard.h"

enum { TRIPLES = 64, ROOM = 320, LONGEST = 4096 };

static uint32_t word(const uint8_t *data, size_t k)
{
    uint32_t w;
    memcpy(&w, data + 4 * k, 4);
    return w;
}

size_t LLVMFuzzerMutate(uint8_t *data, size_t size, size_t most);

static uint32_t next(uint32_t *state)
{
    *state = *state * 1664525u + 1013904223u;
    return *state >> 8;
}

/* A word for the one that stands there: a special one, one of its neighbours, or nearly the same. */
static uint32_t changed(const uint8_t *data, size_t k, size_t n, uint32_t *state)
{
    static const uint32_t special[] = {0, 1, 2, 3, 0x80000000u, 0x3f800000u, 0xbf800000u, 0x3f000000u, 0x461c4000u, 0x461c4001u, 0x7f800000u,
                                       0x7fc00000u, 0x7f7fffffu, 0x00000001u, 0x00800000u, 0x38d1b717u, 0x3a83126fu, 0x40800000u};
    switch (next(state) % 4) {
    case 0: return special[next(state) % (sizeof special / sizeof *special)];
    case 1: return word(data, (k + next(state) % 16) % n);
    case 2: return word(data, k) ^ 1u << next(state) % 32;
    default: return word(data, k) + next(state) % 7 - 3;
    }
}

/* The archive tells the fuzzer nothing of its branches. Most changes keep settings and lengths, which are tested first, so that they reach the scene:
 * a few words of transforms, positions, indices, materials, source and listener; now and then a setting, or anything. */
size_t LLVMFuzzerCustomMutator(uint8_t *data, size_t size, size_t most, unsigned seed)
{
    static const uint32_t settings[BIV_SETTING_COUNTS + BIV_SETTING_FLOATS + 1] = {
        3,           16,          32,          1,           0,           8,           0,           0,           0,           0,
        0,           0,           0,           0,           0x3dcccccdu, 0x42480000u, 0x41a00000u, 0x473b8000u,
        0x3f7f069eu, 0x3e800000u, 0x3d4ccccdu, 0x3f800000u, 0x3f800000u, 0x3f800000u, 0x461c4000u, 0x3d75c28fu, ROOM};
    size_t n = size / 4;
    uint32_t state = seed;
    if (n < HEADER + 1 || next(&state) % 16 == 0)
        return LLVMFuzzerMutate(data, size, most);
    if (next(&state) % 4 == 0) /* the Rust's defaults, in place of settings that may be refused */
        memcpy(data + 4 * COUNTS, settings, sizeof settings);
    for (uint32_t left = 1 + next(&state) % 4; left > 0; left--) {
        uint32_t kind = next(&state) % 16, w;
        size_t meshes = word(data, 0), k = HEADER + (kind < 15 && HEADER + meshes < n ? meshes : 0);
        if (kind == 0)
            k = COUNTS + next(&state) % (SEPARATED - COUNTS); /* a setting, the room, the rows */
        else if (kind <= 3)
            k = SEPARATED + next(&state) % (ANSWER - SEPARATED); /* separated, source, listener */
        else
            k += next(&state) % (n - k);
        w = changed(data, k, n, &state);
        memcpy(data + 4 * k, &w, 4);
    }
    return size;
}

/* Orders that end in time: few images where there are many triangles. */
static uint32_t order(uint32_t asked, size_t triples)
{
    uint32_t most = triples <= 2 ? 8 : triples <= 12 ? 4 : triples <= 18 ? 3 : 2; /* 4 in a hard room: 128 taps */
    return asked <= most ? asked : asked % (most + 1);
}

/* The length of part k (transforms, positions, indices, materials) that belongs to the meshes. */
static size_t lent(size_t k, const uint32_t *meshes, size_t words, uint32_t rows)
{
    size_t vertices = 0, indices = 0;
    for (size_t m = 0; m + 3 <= words; m += 3) {
        vertices += meshes[m];
        indices += meshes[m + 1];
    }
    return k == 1 ? words / 3 * 16 : k == 2 ? 3 * vertices : k == 3 ? indices : (size_t)16 * rows;
}

int LLVMFuzzerTestOneInput(const uint8_t *data, size_t size)
{
    static struct guard parts[5], areas[BIV_AREAS_LENT], first;
    static const size_t element[19] = {4, 4, 4, 4, 4, 8, 8, 8, 8, 4, 4, 4, 4, 4, 4, 4, 4, 4, 4};
    size_t n = size / 4, at = HEADER, lens[5], room[BIV_AREAS_LENT], triples = 0;
    void *part[5], *area[BIV_AREAS_LENT];
    if (n < HEADER)
        return -1;
    for (size_t k = 0; k < 5; k++) {
        size_t say = word(data, k);
        if (k > 0 && word(data, HEADER - 1) % 8 != 2) /* mostly the lengths that the meshes have */
            say = lent(k, (const uint32_t *)part[0], lens[0], word(data, ROWS));
        lens[k] = say <= LONGEST ? say : LONGEST;
        part[k] = area_of(&parts[k], 4 * lens[k]);
        for (size_t j = 0; j < lens[k]; j++) { /* from the front again where the input ends */
            uint32_t w = word(data, (at + j) % n);
            memcpy((uint8_t *)part[k] + 4 * j, &w, 4);
        }
        at += lens[k];
    }
    for (size_t m = 0; m + 3 <= lens[0]; m += 3)
        triples += ((const uint32_t *)part[0])[m + 1] / 3;
    uint32_t counts[BIV_SETTING_COUNTS], c = word(data, ROOM_WORD);
    float floats[BIV_SETTING_FLOATS], source[3], listener[3];
    memcpy(counts, data + 4 * COUNTS, sizeof counts);
    memcpy(floats, data + 4 * FLOATS, sizeof floats);
    memcpy(source, data + 4 * SOURCE, sizeof source);
    memcpy(listener, data + 4 * LISTENER, sizeof listener);
    counts[0] = order(counts[0], triples);
    must(biv_area_lengths(triples <= TRIPLES ? triples : TRIPLES, c <= ROOM ? c : ROOM, room), "lengths for 64 triples");
    if (word(data, HEADER - 1) % 16 == 1 && room[word(data, HEADER - 2) % BIV_AREAS_LENT] > 0) /* now and then an area that is one short */
        room[word(data, HEADER - 2) % BIV_AREAS_LENT]--;
    uint8_t *kept = NULL;
    size_t before[4] = {0, 0, 0, 0};
    uint32_t answered = 0;
    for (int turn = 0; turn < 2; turn++) {
        size_t found[4] = {7, 7, 7, 7};
        uint8_t fill = turn == 0 ? 0x5a : 0xff; /* the second are NaN */
        for (int i = 0; i < BIV_AREAS_LENT; i++)
            area[i] = filled(&areas[i], fill, room[i] * (i < 19 ? element[i] : 1));
        uint8_t *out = (uint8_t *)area[19];
        uint32_t refusal = biv_trace_early_reflections(
            (float *)area[0], room[0], (uint32_t *)area[1], room[1], (float *)area[2], room[2], (uint32_t *)area[3], room[3], (uint32_t *)area[4],
            room[4], (uint64_t *)area[5], room[5], (uint64_t *)area[6], room[6], (uint64_t *)area[7], room[7], (uint64_t *)area[8], room[8],
            (uint32_t *)area[9], room[9], (uint32_t *)area[10], room[10], (uint32_t *)area[11], room[11], (uint32_t *)area[12], room[12],
            (uint32_t *)area[13], room[13], (float *)area[14], room[14], (uint32_t *)area[15], room[15], (float *)area[16], room[16],
            (uint32_t *)area[17], room[17], (float *)area[18], room[18], out, room[19], found, counts, floats, c, (const uint32_t *)part[0], lens[0],
            (const float *)part[1], lens[1], (const float *)part[2], lens[2], (const uint32_t *)part[3], lens[3], (const float *)part[4], lens[4],
            word(data, ROWS), source, listener, (word(data, SEPARATED) & 1) != 0);
        must(refusal <= BIV_CANDIDATES, "a refusal of the query");
        must(counts[4] <= BIV_LINEAR || refusal == BIV_SETTINGS, "another curve refused");
        count(refusal);
        for (int i = 0; i < 19; i++)
            must(all_are(area[i], 0, room[i] * element[i], refusal >= 1 && refusal <= 5 ? fill : 0), "areas as they were after 1 to 5, else zero");
        if (refusal != BIV_NO_REFUSAL) {
            must(found[0] == 0 && found[1] == 0 && found[2] == 0 && found[3] == 0, "no counts after a refusal");
            must(all_are(out, 0, room[19], fill), "the output as it was after a refusal");
        } else {
            static struct biv_tap taps[BIV_MOST_TAPS];
            struct biv_answer a;
            must(found[3] <= room[19] && all_are(out, found[3], room[19], fill), "nothing past the packet");
            must(biv_read(out, found[3], taps, &a) == BIV_NO_REFUSAL, "a packet that the reader takes");
            must(a.count == found[0] && a.images == found[1] && a.rays == found[2], "its counts");
            must(a.count <= counts[1] && a.images <= 250000 && a.rays <= 18u * (counts[5] + 1) * (counts[0] + 1) * a.images, "counts within their bounds");
        }
        if (turn == 0) {
            kept = (uint8_t *)copied(&first, out, found[3]);
            memcpy(before, found, sizeof before);
            answered = refusal;
        } else {
            must(refusal == answered && memcmp(before, found, sizeof before) == 0 && memcmp(kept, out, found[3]) == 0, "the same answer again");
        }
    }
    return 0;
}
