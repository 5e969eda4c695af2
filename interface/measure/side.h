/* A side that makes calls: the archive, the plain C version, or this one asking first whether the numbers are a state. */
#ifndef SIDE_H
#define SIDE_H

#include <stddef.h>
#include <stdint.h>

#include "../tiebeamer.h"

enum kind { RESET, BEGIN, STEP, ABANDON, TIDY, FIGURES, LIST, RUN };

/* The functions of tiebeamer.h, by whichever side. */
struct side {
    const char *name;
    uint32_t (*reset)(uint32_t *, size_t, uint32_t *, size_t);
    uint32_t (*begin)(const uint32_t *, size_t, uint32_t *, size_t, uint32_t, uint32_t, uint32_t, uint32_t);
    uint32_t (*step)(uint32_t *, size_t, uint32_t *, size_t, uint32_t, uint32_t *);
    uint32_t (*run)(uint32_t *, size_t, uint32_t *, size_t, uint32_t, uint32_t, uint32_t *);
    uint32_t (*abandon)(const uint32_t *, size_t, uint32_t *, size_t, uint32_t);
    uint32_t (*tidy)(uint32_t *, size_t, uint32_t *, size_t);
    uint32_t (*figures)(const uint32_t *, size_t, const uint32_t *, size_t, uint32_t *);
    uint32_t (*list)(const uint32_t *, size_t, const uint32_t *, size_t, uint32_t *, size_t);
};

extern const struct side archive_side, plain_side;

/* The plain C version with the interface's own refusals, 50 and 51: it answers whatever the archive answers. */
extern const struct side asking_side;

#endif
