/* Where the fields of the answers lie, as the archive was compiled for: C's layout on x86-64. */
#include <assert.h>
#include <fregnaul.h>

#define AT(type, field, place) static_assert(offsetof(type, field) == (place), #type "." #field)
#define SIZE(type, bytes) static_assert(sizeof(type) == (bytes), #type)
#define ROOT_REM(type, root_at, rest_at, start_at, steps_at, bytes) \
    AT(type, root, root_at);                                        \
    AT(type, rest, rest_at);                                        \
    AT(type, start, start_at);                                      \
    AT(type, steps, steps_at);                                      \
    SIZE(type, bytes)
#define REBUILT(type, value_at, bytes) \
    AT(type, refusal, 0);              \
    AT(type, value, value_at);         \
    SIZE(type, bytes)

ROOT_REM(fregnaul_root_rem_u8, 0, 1, 2, 3, 4);
ROOT_REM(fregnaul_root_rem_u16, 0, 2, 4, 5, 6);
ROOT_REM(fregnaul_root_rem_u32, 0, 4, 8, 10, 12);
ROOT_REM(fregnaul_root_rem_u64, 0, 8, 16, 20, 24);

AT(fregnaul_normalized_root_rem_u16, refusal, 0);
AT(fregnaul_normalized_root_rem_u32, refusal, 0);
AT(fregnaul_normalized_root_rem_u64, refusal, 0);
ROOT_REM(fregnaul_normalized_root_rem_u16, 1, 2, 4, 5, 6);
ROOT_REM(fregnaul_normalized_root_rem_u32, 2, 4, 8, 10, 12);
ROOT_REM(fregnaul_normalized_root_rem_u64, 4, 8, 16, 20, 24);

REBUILT(fregnaul_rebuilt_u8, 1, 2);
REBUILT(fregnaul_rebuilt_u16, 2, 4);
REBUILT(fregnaul_rebuilt_u32, 4, 8);
REBUILT(fregnaul_rebuilt_u64, 8, 16);

AT(fregnaul_batch_answer, refusal, 0);
AT(fregnaul_batch_answer, done, 8);
AT(fregnaul_batch_answer, spent, 16);
SIZE(fregnaul_batch_answer, 24);
