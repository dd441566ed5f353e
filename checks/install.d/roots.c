/* A program of a user's: the version, and one call. */
#include <fregnaul.h>
#include <stdio.h>

int main(void) {
    fregnaul_root_rem_u32 answer = fregnaul_cbrt_rem_u32(1000000007);
    printf("%s %u %u\n", FREGNAUL_VERSION, (unsigned)answer.root, (unsigned)answer.rest);
    return 0;
}
