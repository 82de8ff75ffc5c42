/* A booth of six panels from C: what its query will cost, memory for just that, and the query. */
#include "bivelondry.h"
#include <stdio.h>
#include <stdlib.h>

/* A box of 4 by 3 by 5 m: eight corners, two triangles a side. */
static const uint32_t meshes[3] = {8, 36, 0};
static const float transforms[16] = {1, 0, 0, 0, 0, 1, 0, 0, 0, 0, 1, 0, 0, 0, 0, 1};
static const float positions[24] = {0, 0, 0, 4, 0, 0, 4, 3, 0, 0, 3, 0, 0, 0, 5, 4, 0, 5, 4, 3, 5, 0, 3, 5};
static const uint32_t indices[36] = {0, 1, 2, 0, 2, 3, 4, 6, 5, 4, 7, 6, 0, 4, 5, 0, 5, 1, 3, 2, 6, 3, 6, 7, 0, 3, 7, 0, 7, 4, 1, 5, 6, 1, 6, 2};
static const float materials[16] = {0.5f, 0.5f, 0.5f, 0.5f, 0.5f, 0.5f, 0.5f, 0.5f}; /* lets nothing through */
static const float source[3] = {1, 1, 1}, listener[3] = {3, 1, 4};

int main(void)
{
    const struct biv_scene scene = {meshes, 3, transforms, 16, positions, 24, indices, 36, materials, 16, 1};
    const struct biv_settings settings = biv_default_settings();
    const size_t triples = biv_triples(&scene);
    struct biv_cost cost;
    struct biv_answer answer;
    static uint8_t out[BIV_OUTPUT_BYTES]; /* 55 KB */
    uint32_t refusal = biv_forecast(settings.crossing_limit, 6, 6, settings.max_reflection_order, (uint32_t)triples, &cost);
    if (refusal == BIV_NO_REFUSAL) {
        size_t size = biv_block_size(triples, cost.candidates);
        void *block = calloc(1, size);
        if (block == NULL) {
            fprintf(stderr, "forecast: no memory for a block of %zu bytes\n", size);
            return 1;
        }
        printf("images of each order");
        for (int k = 0; k < BIV_MOST_ORDER; k++)
            printf(" %u", (unsigned)cost.counts[k]);
        printf("\ncandidates %u, rays %llu, words %llu at most\n", (unsigned)cost.candidates, (unsigned long long)cost.rays, (unsigned long long)cost.words);
        refusal = biv_trace(&settings, cost.candidates, &scene, source, listener, false, block, size, out, sizeof out, &answer);
        free(block);
    }
    if (refusal != BIV_NO_REFUSAL) {
        fprintf(stderr, "forecast: refusal %u: %s\n", (unsigned)refusal, biv_refusal_text(refusal));
        return 1;
    }
    printf("taps %zu, images %u, rays %u\n", answer.count, (unsigned)answer.images, (unsigned)answer.rays);
    return 0;
}
