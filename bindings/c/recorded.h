/* Where things stand in the words of a recorded query (crates/replay/src/main.rt says what they are). */
#ifndef RECORDED_H
#define RECORDED_H

#include "bivelondry.h"

enum {
    LENGTHS = 0, /* of meshes, transforms, positions, indices, materials */
    COUNTS = 5,
    FLOATS = COUNTS + BIV_SETTING_COUNTS,
    ROOM_WORD = FLOATS + BIV_SETTING_FLOATS,
    ROWS,
    SEPARATED,
    SOURCE,
    LISTENER = SOURCE + 3,
    ANSWER = LISTENER + 3, /* refusal, taps, images, rays, bytes */
    HEADER = ANSWER + 5
};

#endif
