/* Case A of document 01: a floor of 8 by 8 m, the source 2 m above its middle, the listener 3 m beside it. */
#ifndef CASE_A_H
#define CASE_A_H

#include "bivelondry.h"

static const uint32_t case_a_meshes[3] = {4, 6, 0};
static const float case_a_transforms[16] = {1, 0, 0, 0, 0, 1, 0, 0, 0, 0, 1, 0, 0, 0, 0, 1};
static const float case_a_positions[12] = {-4, 0, -4, 4, 0, -4, 4, 0, 4, -4, 0, 4};
static const uint32_t case_a_indices[6] = {0, 1, 2, 0, 2, 3};
static const float case_a_materials[16] = {0.75f, 0.75f, 0.75f, 0.75f, 0.75f, 0.75f, 0.75f, 0.75f}; /* lets nothing through */
static const float case_a_source[3] = {0, 2, 0};
static const float case_a_listener[3] = {3, 2, 0};
static const uint32_t case_a_c = 1;

static inline struct biv_settings case_a_settings(void)
{
    return biv_default_settings(); /* 20 degrees among them */
}

static inline struct biv_scene case_a_scene(void)
{
    struct biv_scene s = {case_a_meshes, 3, case_a_transforms, 16, case_a_positions, 12, case_a_indices, 6, case_a_materials, 16, 1};
    return s;
}

#endif
