/* Runs the recorded queries of crates/replay/stdin (crates/replay/src/main.rt says what stands in a line) through bivelondry.h and compares refusal,
 * counts and every byte of the packet with what the Rust answered. Each query runs in blocks that hold zeros, ones, NaN and a pattern: what a block holds
 * must not matter. Given two folders it writes each query to the first, as words, and each packet to the second, for the fuzzers.
 *
 *     replay ../../crates/replay/stdin [QUERIES PACKETS]      ends with `N cases, M differ` */
#include "recorded.h"
#include <ctype.h>
#include <stdio.h>
#include <stdlib.h>

enum { LONGEST = 8192, LINE = 9 * LONGEST };

static float as_float(uint32_t word)
{
    float x;
    memcpy(&x, &word, sizeof x);
    return x;
}

static void *room(size_t size)
{
    void *at = malloc(size > 0 ? size : 1);
    if (at == NULL) {
        fprintf(stderr, "replay: no memory for %zu bytes\n", size);
        exit(2);
    }
    return at;
}

static float *floats(const uint32_t *words, size_t n)
{
    float *all = (float *)room(n * sizeof(float));
    for (size_t k = 0; k < n; k++)
        all[k] = as_float(words[k]);
    return all;
}

/* The words of a line behind its name; how many they are. */
static size_t words_of(const char *text, uint32_t *words)
{
    size_t n = 0, digits = 0;
    uint32_t word = 0;
    for (; *text != '\0' && n < LONGEST; text++) {
        if (!isxdigit((unsigned char)*text))
            continue;
        word = word << 4 | (uint32_t)(isdigit((unsigned char)*text) ? *text - '0' : tolower((unsigned char)*text) - 'a' + 10);
        if (++digits == 8) {
            words[n++] = word;
            digits = 0;
        }
    }
    return n;
}

/* Runs one query in a block full of a byte; whether all is as recorded. */
static bool same(const uint32_t *w, size_t n, int fill)
{
    const uint32_t *part = w + HEADER, *packet = part + w[0] + w[1] + w[2] + w[3] + w[4], *expected = w + ANSWER;
    float f[BIV_SETTING_FLOATS], source[3], listener[3];
    memcpy(f, w + FLOATS, sizeof f);
    memcpy(source, w + SOURCE, sizeof source);
    memcpy(listener, w + LISTENER, sizeof listener);
    const uint32_t *c = w + COUNTS;
    struct biv_settings s = {c[0], c[1], c[2], f[0], f[1], f[2], f[3], f[4], c[3] != 0, f[5], f[6], {c[4], f[7], f[8], f[9], f[10]}, c[5], f[11], {c[6], c[7], c[8], c[9], c[10], c[11], c[12], c[13]}};
    float *transforms = floats(part + w[0], w[1]), *positions = floats(part + w[0] + w[1], w[2]), *materials = floats(packet - w[4], w[4]);
    struct biv_scene scene = {part, w[0], transforms, w[1], positions, w[2], packet - w[4] - w[3], w[3], materials, w[4], w[ROWS]};
    size_t size = biv_block_size(biv_triples(&scene), w[ROOM_WORD]);
    uint8_t *block = (uint8_t *)room(size), *out = (uint8_t *)room(BIV_OUTPUT_BYTES);
    struct biv_answer a;
    memset(block, fill, size);
    uint32_t refusal = biv_trace(&s, w[ROOM_WORD], &scene, source, listener, w[SEPARATED] != 0, block, size, out, BIV_OUTPUT_BYTES, &a);
    bool held = refusal == expected[0] && a.count == expected[1] && a.images == expected[2] && a.rays == expected[3] && a.bytes == expected[4];
    for (size_t k = 0; held && k < a.bytes; k++)
        held = packet + k / 4 < w + n && out[k] == (packet[k / 4] >> 8 * (k % 4) & 0xff);
    free(transforms);
    free(positions);
    free(materials);
    free(block);
    free(out);
    return held;
}

static void keep(const char *folder, const char *name, const uint32_t *words, size_t bytes)
{
    char path[4096];
    int length = snprintf(path, sizeof path, "%s/%s", folder, name);
    FILE *f = length > 0 && (size_t)length < sizeof path ? fopen(path, "wb") : NULL;
    if (f == NULL || fwrite(words, 1, bytes, f) != bytes || fclose(f) != 0) {
        fprintf(stderr, "replay: %s cannot be written\n", path);
        exit(2);
    }
}

int main(int argc, char **argv)
{
    static char line[LINE];
    static uint32_t words[LONGEST];
    static const int fills[4] = {0x00, 0xff, 0x7f, 0x5a};
    unsigned cases = 0, differ = 0;
    FILE *f = argc > 1 ? fopen(argv[1], "r") : NULL;
    if (f == NULL) {
        fprintf(stderr, "replay: say which file has the recorded queries: crates/replay/stdin\n");
        return 2;
    }
    while (fgets(line, sizeof line, f) != NULL) {
        char *rest = strchr(line, ' ');
        size_t n;
        bool held;
        if (line[0] == '#' || rest == NULL)
            continue;
        *rest = '\0';
        n = words_of(rest + 1, words);
        cases++;
        held = n >= HEADER && HEADER + (size_t)words[0] + words[1] + words[2] + words[3] + words[4] <= n;
        for (int k = 0; held && k < 4; k++)
            held = same(words, n, fills[k]);
        if (!held) {
            differ++;
            printf("%s differs\n", line);
        } else if (argc > 3) {
            keep(argv[2], line, words, n * sizeof *words);
            if (words[HEADER - 1] > 0)
                keep(argv[3], line, words + HEADER + words[0] + words[1] + words[2] + words[3] + words[4], words[HEADER - 1]);
        }
    }
    fclose(f);
    printf("%u cases, %u differ\n", cases, differ);
    return cases == 0 || differ > 0;
}
