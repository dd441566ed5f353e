/* Fregnaul: whole-number square and cube roots with remainder.
 *
 * The square root of n is the greatest a with a*a <= n, its cube root the greatest a with a*a*a <= n, and the rest is
 * what n has above that power. What the lines below say of the answers is proved for every input. No call allocates,
 * keeps state or fails in another way than by a refusal, and all may be called from several threads at once.
 *
 * The archive is for x86-64 Linux; ./archive builds it and says where it is. checks/header holds this file to the source.
 */
#ifndef FREGNAUL_H
#define FREGNAUL_H

#include <stddef.h>
#include <stdint.h>

/* The middle number goes up with each call that is added, the first where a struct or a call changes. */
#define FREGNAUL_VERSION_MAJOR 2
#define FREGNAUL_VERSION_MINOR 0
#define FREGNAUL_VERSION_PATCH 0
#define FREGNAUL_VERSION "2.0.0"

#if SIZE_MAX != UINT64_MAX
#error "fregnaul: lengths are 64 bits wide"
#endif

#ifdef __cplusplus
extern "C" {
#endif

/* A call that can refuse has one of these numbers in its answer's `refusal`; a refused answer's other fields are 0. */
enum fregnaul_refusal {
    FREGNAUL_NO_REFUSAL = 0,     /* not refused */
    FREGNAUL_NOT_NORMALIZED = 1, /* n is below the bound of the normalised call */
    FREGNAUL_FIRST_BEYOND = 2,   /* first is above the number of values */
    FREGNAUL_COUNT_BEYOND = 3,   /* count is above the number of values less first */
    FREGNAUL_LENGTHS_DIFFER = 4, /* there are more roots than values, or fewer */
    FREGNAUL_REST_BEYOND = 5,    /* the rest is above 2*root (square), 3*root*root + 3*root (cube) */
    FREGNAUL_VALUE_BEYOND = 6    /* the rebuilt value is above the greatest of its width */
};

/* ---- Full calls: any n, never refused ----
 *
 * start is where the walk to the root began, steps how many ones it took: both of the normalised call on n shifted to
 * its top bits, and not shifted back. At 0 both are 0. At 8 bits start is 0 and steps is the root.
 */

typedef struct fregnaul_root_rem_u8 {
    uint8_t root;
    uint8_t rest;
    uint8_t start;
    uint8_t steps;
} fregnaul_root_rem_u8;

typedef struct fregnaul_root_rem_u16 {
    uint8_t root;
    uint16_t rest;
    uint8_t start;
    uint8_t steps;
} fregnaul_root_rem_u16;

typedef struct fregnaul_root_rem_u32 {
    uint16_t root;
    uint32_t rest;
    uint16_t start;
    uint16_t steps;
} fregnaul_root_rem_u32;

typedef struct fregnaul_root_rem_u64 {
    uint32_t root;
    uint64_t rest;
    uint32_t start;
    uint32_t steps;
} fregnaul_root_rem_u64;

/* Square root and rest of n; at most 15 steps. */
fregnaul_root_rem_u8 fregnaul_sqrt_rem_u8(uint8_t n);

/* Cube root and rest of n; at most 6 steps. */
fregnaul_root_rem_u8 fregnaul_cbrt_rem_u8(uint8_t n);

/* Square root and rest of n; at most 3 steps. */
fregnaul_root_rem_u16 fregnaul_sqrt_rem_u16(uint16_t n);

/* Cube root and rest of n; at most 3 steps. */
fregnaul_root_rem_u16 fregnaul_cbrt_rem_u16(uint16_t n);

/* Square root and rest of n; at most 2 steps. */
fregnaul_root_rem_u32 fregnaul_sqrt_rem_u32(uint32_t n);

/* Cube root and rest of n; at most 3 steps. */
fregnaul_root_rem_u32 fregnaul_cbrt_rem_u32(uint32_t n);

/* Square root and rest of n; at most 2 steps. */
fregnaul_root_rem_u64 fregnaul_sqrt_rem_u64(uint64_t n);

/* Cube root and rest of n; at most 6 steps. */
fregnaul_root_rem_u64 fregnaul_cbrt_rem_u64(uint64_t n);

/* ---- Roots alone: any n, never refused ---- */

/* Square root of n. */
uint8_t fregnaul_sqrt_u8(uint8_t n);

/* Cube root of n. */
uint8_t fregnaul_cbrt_u8(uint8_t n);

/* Square root of n. */
uint8_t fregnaul_sqrt_u16(uint16_t n);

/* Cube root of n. */
uint8_t fregnaul_cbrt_u16(uint16_t n);

/* Square root of n. */
uint16_t fregnaul_sqrt_u32(uint32_t n);

/* Cube root of n. */
uint16_t fregnaul_cbrt_u32(uint32_t n);

/* Square root of n. */
uint32_t fregnaul_sqrt_u64(uint64_t n);

/* Cube root of n. */
uint32_t fregnaul_cbrt_u64(uint64_t n);

/* ---- Normalised calls: n from a bound on, below it refused ---- */

typedef struct fregnaul_normalized_root_rem_u16 {
    uint8_t refusal;
    uint8_t root;
    uint16_t rest;
    uint8_t start;
    uint8_t steps;
} fregnaul_normalized_root_rem_u16;

typedef struct fregnaul_normalized_root_rem_u32 {
    uint8_t refusal;
    uint16_t root;
    uint32_t rest;
    uint16_t start;
    uint16_t steps;
} fregnaul_normalized_root_rem_u32;

typedef struct fregnaul_normalized_root_rem_u64 {
    uint8_t refusal;
    uint32_t root;
    uint64_t rest;
    uint32_t start;
    uint32_t steps;
} fregnaul_normalized_root_rem_u64;

/* Square root and rest of n, at most 3 steps; FREGNAUL_NOT_NORMALIZED exactly if n < 2^14. */
fregnaul_normalized_root_rem_u16 fregnaul_normalized_sqrt_rem_u16(uint16_t n);

/* Cube root and rest of n, at most 3 steps; FREGNAUL_NOT_NORMALIZED exactly if n < 2^13. */
fregnaul_normalized_root_rem_u16 fregnaul_normalized_cbrt_rem_u16(uint16_t n);

/* Square root and rest of n, at most 2 steps; FREGNAUL_NOT_NORMALIZED exactly if n < 2^30. */
fregnaul_normalized_root_rem_u32 fregnaul_normalized_sqrt_rem_u32(uint32_t n);

/* Cube root and rest of n, at most 3 steps; FREGNAUL_NOT_NORMALIZED exactly if n < 2^29. */
fregnaul_normalized_root_rem_u32 fregnaul_normalized_cbrt_rem_u32(uint32_t n);

/* Square root and rest of n, at most 2 steps; FREGNAUL_NOT_NORMALIZED exactly if n < 2^62. */
fregnaul_normalized_root_rem_u64 fregnaul_normalized_sqrt_rem_u64(uint64_t n);

/* Cube root and rest of n, at most 6 steps; FREGNAUL_NOT_NORMALIZED exactly if n < 2^61. */
fregnaul_normalized_root_rem_u64 fregnaul_normalized_cbrt_rem_u64(uint64_t n);

/* ---- Rebuilding a value from its root and rest ----
 *
 * FREGNAUL_REST_BEYOND is tried first: a rest that no value with that root has. Then FREGNAUL_VALUE_BEYOND.
 */

typedef struct fregnaul_rebuilt_u8 {
    uint8_t refusal;
    uint8_t value;
} fregnaul_rebuilt_u8;

typedef struct fregnaul_rebuilt_u16 {
    uint8_t refusal;
    uint16_t value;
} fregnaul_rebuilt_u16;

typedef struct fregnaul_rebuilt_u32 {
    uint8_t refusal;
    uint32_t value;
} fregnaul_rebuilt_u32;

typedef struct fregnaul_rebuilt_u64 {
    uint8_t refusal;
    uint64_t value;
} fregnaul_rebuilt_u64;

/* root*root + rest; FREGNAUL_REST_BEYOND, FREGNAUL_VALUE_BEYOND (above 255). */
fregnaul_rebuilt_u8 fregnaul_rebuild_square_u8(uint8_t root, uint8_t rest);

/* root*root*root + rest; FREGNAUL_REST_BEYOND, FREGNAUL_VALUE_BEYOND (above 255). */
fregnaul_rebuilt_u8 fregnaul_rebuild_cube_u8(uint8_t root, uint8_t rest);

/* root*root + rest; FREGNAUL_REST_BEYOND, FREGNAUL_VALUE_BEYOND (above 2^16 - 1). */
fregnaul_rebuilt_u16 fregnaul_rebuild_square_u16(uint8_t root, uint16_t rest);

/* root*root*root + rest; FREGNAUL_REST_BEYOND, FREGNAUL_VALUE_BEYOND (above 2^16 - 1). */
fregnaul_rebuilt_u16 fregnaul_rebuild_cube_u16(uint8_t root, uint16_t rest);

/* root*root + rest; FREGNAUL_REST_BEYOND, FREGNAUL_VALUE_BEYOND (above 2^32 - 1). */
fregnaul_rebuilt_u32 fregnaul_rebuild_square_u32(uint16_t root, uint32_t rest);

/* root*root*root + rest; FREGNAUL_REST_BEYOND, FREGNAUL_VALUE_BEYOND (above 2^32 - 1). */
fregnaul_rebuilt_u32 fregnaul_rebuild_cube_u32(uint16_t root, uint32_t rest);

/* root*root + rest; FREGNAUL_REST_BEYOND, FREGNAUL_VALUE_BEYOND (above 2^64 - 1). */
fregnaul_rebuilt_u64 fregnaul_rebuild_square_u64(uint32_t root, uint64_t rest);

/* root*root*root + rest; FREGNAUL_REST_BEYOND, FREGNAUL_VALUE_BEYOND (above 2^64 - 1). */
fregnaul_rebuilt_u64 fregnaul_rebuild_cube_u64(uint32_t root, uint64_t rest);

/* ---- The batch: square roots of a part of many values, under a budget of steps ----
 *
 * A value costs the steps that its full call reports. done is how many of the part's values, in order, the budget pays
 * for; spent is what they cost. A budget that runs out is no refusal: a later call goes on from first + done. No value costs
 * more than 2, so a budget of at least 2 always goes on, and one of 2 * count finishes; one below 2 may stand still.
 *
 * Each pointer has as many elements behind it as its length says, and the two must not overlap. With length 0 nothing is
 * read or written there.
 */

typedef struct fregnaul_batch_answer {
    uint8_t refusal;
    size_t done;
    uint64_t spent;
} fregnaul_batch_answer;

/* Writes the square roots of values[first] to values[first + done - 1] to the same places of roots and leaves every other
 * place as it was; FREGNAUL_FIRST_BEYOND, FREGNAUL_COUNT_BEYOND, FREGNAUL_LENGTHS_DIFFER, tried in this order. */
fregnaul_batch_answer fregnaul_sqrt_batch_u32(const uint32_t *values, size_t values_length,
                                              uint16_t *roots, size_t roots_length,
                                              size_t first, size_t count, uint64_t budget);

#ifdef __cplusplus
}
#endif

#endif
