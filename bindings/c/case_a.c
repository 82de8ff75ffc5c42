/* The echoes of case A, from C: what a station does. Prints the taps, the counts and the packet's length. */
#include "case_a.h"
#include <stdio.h>
#include <stdlib.h>

int main(void)
{
    struct biv_settings settings = case_a_settings();
    struct biv_scene scene = case_a_scene();
    size_t size = biv_block_size(biv_triples(&scene), case_a_c);
    void *block = calloc(1, size);
    static uint8_t out[BIV_OUTPUT_BYTES]; /* 55 KB and 57 KB */
    static struct biv_tap taps[BIV_MOST_TAPS];
    struct biv_answer answer;
    uint32_t refusal;
    if (block == NULL) {
        fprintf(stderr, "case_a: no memory for a block of %zu bytes\n", size);
        return 1;
    }
    refusal = biv_trace(&settings, case_a_c, &scene, case_a_source, case_a_listener, false, block, size, out, sizeof out, &answer);
    if (refusal == BIV_NO_REFUSAL)
        refusal = biv_read(out, answer.bytes, taps, &answer);
    free(block);
    if (refusal != BIV_NO_REFUSAL) {
        fprintf(stderr, "case_a: refusal %u: %s\n", (unsigned)refusal, biv_refusal_text(refusal));
        return 1;
    }
    printf("taps %zu, images %u, rays %u, packet %zu bytes\n", answer.count, (unsigned)answer.images, (unsigned)answer.rays, answer.bytes);
    printf("order  number  delay in samples  direction                gain at 62.5 Hz .. 8 kHz\n");
    for (size_t k = 0; k < answer.count; k++) {
        const struct biv_tap *t = &taps[k];
        printf("%5u  %6u  %16.3f  (%6.3f, %6.3f, %6.3f) ", (unsigned)t->order, (unsigned)t->number, t->delay_samples, t->direction[0],
               t->direction[1], t->direction[2]);
        for (int b = 0; b < BIV_BANDS; b++)
            printf(" %.4f", t->gains[b]);
        printf("\n");
    }
    return 0;
}
