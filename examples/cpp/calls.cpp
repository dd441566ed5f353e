// Each call of fregnaul.hpp beside the call of fregnaul.h that it stands for, each kind of slice, each kind of refusal.
#include <fregnaul.hpp>

#include <array>
#include <cstdio>
#include <vector>
#if __cplusplus >= 202002L
#include <span>
#endif

namespace {

int compared = 0, wrong = 0;

void expect(bool holds, const char *what) {
    if (holds) return;
    wrong++;
    std::printf("wrong: %s\n", what);
}

using numbers = std::array<std::uint64_t, 4>;

numbers fields(std::uint64_t root) { return {root}; }
numbers fields(const fregnaul_batch_answer &a) { return {a.done, a.spent}; }
template <class A> auto fields(const A &a) -> decltype(a.value, numbers()) { return {a.value}; }
template <class A> auto fields(const A &a) -> decltype(a.root, numbers()) { return {a.root, a.rest, a.start, a.steps}; }

template <class A> void compare(const A &cpp, const A &c, const char *what) {
    compared++;
    expect(fields(cpp) == fields(c), what);
}

template <class A> void compare(const fregnaul::result<A> &cpp, const A &c, const char *what) { compare(*cpp, c, what); }

#define COMPARE(cpp, c) compare(fregnaul::cpp, fregnaul_##c, #c)

void compare_roots(std::uint8_t n8, std::uint16_t n16, std::uint32_t n32, std::uint64_t n64) {
    COMPARE(sqrt_rem(n8), sqrt_rem_u8(n8));
    COMPARE(cbrt_rem(n8), cbrt_rem_u8(n8));
    COMPARE(sqrt_rem(n16), sqrt_rem_u16(n16));
    COMPARE(cbrt_rem(n16), cbrt_rem_u16(n16));
    COMPARE(sqrt_rem(n32), sqrt_rem_u32(n32));
    COMPARE(cbrt_rem(n32), cbrt_rem_u32(n32));
    COMPARE(sqrt_rem(n64), sqrt_rem_u64(n64));
    COMPARE(cbrt_rem(n64), cbrt_rem_u64(n64));

    COMPARE(sqrt(n8), sqrt_u8(n8));
    COMPARE(cbrt(n8), cbrt_u8(n8));
    COMPARE(sqrt(n16), sqrt_u16(n16));
    COMPARE(cbrt(n16), cbrt_u16(n16));
    COMPARE(sqrt(n32), sqrt_u32(n32));
    COMPARE(cbrt(n32), cbrt_u32(n32));
    COMPARE(sqrt(n64), sqrt_u64(n64));
    COMPARE(cbrt(n64), cbrt_u64(n64));

    COMPARE(normalized_sqrt_rem(n16), normalized_sqrt_rem_u16(n16));
    COMPARE(normalized_cbrt_rem(n16), normalized_cbrt_rem_u16(n16));
    COMPARE(normalized_sqrt_rem(n32), normalized_sqrt_rem_u32(n32));
    COMPARE(normalized_cbrt_rem(n32), normalized_cbrt_rem_u32(n32));
    COMPARE(normalized_sqrt_rem(n64), normalized_sqrt_rem_u64(n64));
    COMPARE(normalized_cbrt_rem(n64), normalized_cbrt_rem_u64(n64));
}

void compare_rebuilt() {
    const std::uint8_t r8 = 5, n8 = 10;
    const std::uint16_t r16 = 5, n16 = 10;
    const std::uint32_t r32 = 5, n32 = 10;
    const std::uint64_t n64 = 10;
    COMPARE(rebuild_square(r8, n8), rebuild_square_u8(r8, n8));
    COMPARE(rebuild_cube(r8, n8), rebuild_cube_u8(r8, n8));
    COMPARE(rebuild_square(r8, n16), rebuild_square_u16(r8, n16));
    COMPARE(rebuild_cube(r8, n16), rebuild_cube_u16(r8, n16));
    COMPARE(rebuild_square(r16, n32), rebuild_square_u32(r16, n32));
    COMPARE(rebuild_cube(r16, n32), rebuild_cube_u32(r16, n32));
    COMPARE(rebuild_square(r32, n64), rebuild_square_u64(r32, n64));
    COMPARE(rebuild_cube(r32, n64), rebuild_cube_u64(r32, n64));
}

const std::uint32_t values[] = {25, 36, 50};

// The batch on these values and roots, lent as they were given: a temporary as a temporary.
template <class Values, class Roots> void lend(Values &&lent, Roots &&roots, const char *what) {
    const fregnaul::slice<std::uint16_t> written(roots);
    for (std::size_t i = 0; i < written.size(); i++) written.data()[i] = 9;
    const auto ran = fregnaul::sqrt_batch(std::forward<Values>(lent), std::forward<Roots>(roots), 1, 2, 4);
    expect(ran && ran->done == 2 && written.data()[0] == 9 && written.data()[1] == 6 && written.data()[2] == 7, what);
}

void lend_each_kind() {
    std::uint16_t roots[3] = {};
    COMPARE(sqrt_batch({values, 3}, {roots, 3}, 1, 2, 4), sqrt_batch_u32(values, 3, roots, 3, 1, 2, 4));

    std::array<std::uint16_t, 3> fixed;
    std::vector<std::uint16_t> grown(3);
    lend(values, roots, "arrays");
    lend(std::array<std::uint32_t, 3>{25, 36, 50}, fixed, "std::array");
    lend(std::vector<std::uint32_t>{25, 36, 50}, grown, "std::vector");
    lend(fregnaul::slice<const std::uint32_t>(values), fregnaul::slice<std::uint16_t>(grown), "slices");
#if __cplusplus >= 202002L
    const std::span<std::uint16_t> span(roots);
    lend(std::span(values), span, "std::span");
    lend(std::span(values).first(3), std::span(grown).subspan(0), "temporary std::span");
#endif
}

void see_refusals() {
    const std::uint8_t small = 16;
    std::uint16_t roots[4] = {};
    expect(fregnaul::normalized_sqrt_rem(std::uint16_t{16383}).why() == FREGNAUL_NOT_NORMALIZED, "not normalised");
    expect(fregnaul::sqrt_batch(values, roots, 4, 0, 0).why() == FREGNAUL_FIRST_BEYOND, "first beyond");
    expect(fregnaul::sqrt_batch(values, roots, 3, 1, 0).why() == FREGNAUL_COUNT_BEYOND, "count beyond");
    expect(fregnaul::sqrt_batch(values, roots, 0, 3, 0).why() == FREGNAUL_LENGTHS_DIFFER, "lengths differ");
    expect(fregnaul::rebuild_square(small, std::uint8_t{33}).why() == FREGNAUL_REST_BEYOND, "rest beyond");
    expect(!fregnaul::rebuild_square(small, small), "refused");
    expect(fregnaul::rebuild_square(small, small).why() == FREGNAUL_VALUE_BEYOND, "value beyond");
#ifdef NDEBUG
    expect(fregnaul::rebuild_square(small, small)->value == 0, "zeros where a refused answer is taken");
#endif
}

// What must not compile: a type that is no width, a root that would be cut down, roots that would be lost.
void see_compiler_refusals() {
    const auto full = [](auto n) -> decltype(fregnaul::sqrt_rem(n)) { return fregnaul::sqrt_rem(n); };
    static_assert(std::is_invocable_v<decltype(full), std::uint64_t>);
    static_assert(!std::is_invocable_v<decltype(full), int>);

    const auto rebuild = [](auto root, auto rest) -> decltype(fregnaul::rebuild_cube(root, rest)) {
        return fregnaul::rebuild_cube(root, rest);
    };
    static_assert(std::is_invocable_v<decltype(rebuild), std::uint16_t, std::uint32_t>);
    static_assert(!std::is_invocable_v<decltype(rebuild), std::uint32_t, std::uint32_t>);

    static_assert(std::is_convertible_v<std::vector<std::uint16_t> &, fregnaul::slice<std::uint16_t>>);
    static_assert(!std::is_convertible_v<std::vector<std::uint16_t>, fregnaul::slice<std::uint16_t>>);
    static_assert(!std::is_convertible_v<const std::vector<std::uint16_t> &, fregnaul::slice<std::uint16_t>>);
    static_assert(!std::is_convertible_v<std::vector<std::uint64_t> &, fregnaul::slice<const std::uint32_t>>);
}

} // namespace

int main() {
    compare_roots(200, 50000, 3000000000, 10376279628611328125u);
    compare_rebuilt();
    lend_each_kind();
    see_refusals();
    see_compiler_refusals();
    std::printf("%d calls answer in C++ as in C, %d things are wrong\n", compared, wrong);
    return wrong == 0 ? 0 : 1;
}
