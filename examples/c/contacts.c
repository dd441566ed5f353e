/* Contact lengths in whole numbers: the same on every machine of a lockstep game. */
#include <fregnaul.h>

#include <inttypes.h>
#include <stdio.h>

enum { PAIRS = 6, BUDGET_A_FRAME = 5 };

typedef struct vector {
    int32_t x, y, z;
} vector;

static const char *const reasons[] = {
    [FREGNAUL_NO_REFUSAL] = "answered",
    [FREGNAUL_NOT_NORMALIZED] = "not normalised",
    [FREGNAUL_FIRST_BEYOND] = "first beyond the values",
    [FREGNAUL_COUNT_BEYOND] = "count beyond the values",
    [FREGNAUL_LENGTHS_DIFFER] = "lengths differ",
    [FREGNAUL_REST_BEYOND] = "rest beyond its root",
    [FREGNAUL_VALUE_BEYOND] = "value beyond its width",
};

/* Three squares of 32-bit numbers are below 2^64 together. */
static uint64_t squared_length(vector v) {
    int64_t x = v.x, y = v.y, z = v.z;
    return (uint64_t)(x * x) + (uint64_t)(y * y) + (uint64_t)(z * z);
}

static void print_lengths(void) {
    static const vector contacts[] = {{3, -4, 0}, {-1000, 1000, 1000}, {0, 0, 0}, {INT32_MAX, INT32_MIN, INT32_MAX}};
    for (size_t i = 0; i < sizeof contacts / sizeof contacts[0]; i++) {
        vector v = contacts[i];
        fregnaul_root_rem_u64 length = fregnaul_sqrt_rem_u64(squared_length(v));
        printf("contact (%" PRId32 ", %" PRId32 ", %" PRId32 "): length %" PRIu32 ", rest %" PRIu64 ", %" PRIu32 " steps\n",
               v.x, v.y, v.z, length.root, length.rest, length.steps);
    }
}

static void print_roots(const uint16_t roots[PAIRS]) {
    printf("roots:");
    for (size_t i = 0; i < PAIRS; i++) printf(" %" PRIu16, roots[i]);
    printf("\n");
}

/* Each frame takes as many pairs as its budget pays for; the next goes on from there. */
static void run_frames(const uint32_t squared[PAIRS], uint16_t roots[PAIRS]) {
    size_t next = 0;
    for (int frame = 1; frame <= 2; frame++) {
        fregnaul_batch_answer ran =
            fregnaul_sqrt_batch_u32(squared, PAIRS, roots, PAIRS, next, PAIRS - next, BUDGET_A_FRAME);
        next += ran.done;
        printf("frame %d: %zu pairs done, %" PRIu64 " of %d steps spent, %zu of %d pairs so far\n", frame, ran.done,
               ran.spent, BUDGET_A_FRAME, next, PAIRS);
        print_roots(roots);
    }
}

static void print_refused_batch(const uint32_t squared[PAIRS], uint16_t roots[PAIRS]) {
    fregnaul_batch_answer ran = fregnaul_sqrt_batch_u32(squared, PAIRS, roots, PAIRS, 4, 3, BUDGET_A_FRAME);
    printf("3 pairs from place 4 on: refusal %d, %s; %zu pairs done\n", ran.refusal, reasons[ran.refusal], ran.done);
    print_roots(roots);
}

static void print_normalized(uint32_t n) {
    fregnaul_normalized_root_rem_u32 r = fregnaul_normalized_sqrt_rem_u32(n);
    if (r.refusal == FREGNAUL_NO_REFUSAL)
        printf("normalised %" PRIu32 ": root %" PRIu16 ", start %" PRIu16 ", %" PRIu16 " steps\n", n, r.root, r.start, r.steps);
    else
        printf("normalised %" PRIu32 ": refusal %d, %s\n", n, r.refusal, reasons[r.refusal]);
}

static void print_rebuilt(uint16_t root, uint32_t rest) {
    fregnaul_rebuilt_u32 r = fregnaul_rebuild_cube_u32(root, rest);
    if (r.refusal == FREGNAUL_NO_REFUSAL)
        printf("cube of %" PRIu16 " and %" PRIu32 ": %" PRIu32 "\n", root, rest, r.value);
    else
        printf("cube of %" PRIu16 " and %" PRIu32 ": refusal %d, %s\n", root, rest, r.refusal, reasons[r.refusal]);
}

int main(void) {
    static const uint32_t squared[PAIRS] = {25, 1, 3000000, 1073741824, 4, UINT32_MAX};
    uint16_t roots[PAIRS] = {0};
    print_lengths();
    run_frames(squared, roots);
    print_refused_batch(squared, roots);
    print_normalized(1073741824);
    print_normalized(1073741823);
    print_rebuilt(1625, 3951670);
    print_rebuilt(1625, 3951671);
    print_rebuilt(1625, 7926751);
    return 0;
}
