// Fregnaul in C++17: every call of fregnaul.h, under one name for all widths. What the answers promise is said and proved
// there; their types are its structs. Nothing here allocates, throws or keeps state.
//
//     auto length = fregnaul::sqrt_rem(squared); // .root, .rest, .start, .steps
//     if (auto n = fregnaul::rebuild_square(root, rest)) use(n->value); else complain(fregnaul::reason(n.why()));
//
// The argument's type is the width: std::uint8_t, std::uint16_t, std::uint32_t or std::uint64_t. Any other, such as int,
// doesn't compile: write fregnaul::sqrt(std::uint32_t{25}).
#ifndef FREGNAUL_HPP
#define FREGNAUL_HPP

#if __cplusplus < 201703L
#error "fregnaul.hpp: C++17 or later"
#endif

#include <fregnaul.h>

#include <cassert>
#include <cstddef>
#include <cstdint>
#include <iterator>
#include <type_traits>
#include <utility>

namespace fregnaul {

// An answer, or why there is none. Look before you take it: taking a refused one stops the program by assert, and gives
// zeros where NDEBUG turns that off.
template <class Answer> class [[nodiscard]] result {
public:
    result(Answer answer) : answer_(answer) {}
    explicit operator bool() const { return why() == FREGNAUL_NO_REFUSAL; }
    fregnaul_refusal why() const { return static_cast<fregnaul_refusal>(answer_.refusal); }
    const Answer *operator->() const {
        assert(*this && "a refused answer was taken");
        return &answer_;
    }
    Answer operator*() const { return *operator->(); }

private:
    Answer answer_;
};

// A refusal in words.
inline const char *reason(fregnaul_refusal refusal) {
    switch (refusal) {
    case FREGNAUL_NO_REFUSAL: return "answered";
    case FREGNAUL_NOT_NORMALIZED: return "not normalised";
    case FREGNAUL_FIRST_BEYOND: return "first beyond the values";
    case FREGNAUL_COUNT_BEYOND: return "count beyond the values";
    case FREGNAUL_LENGTHS_DIFFER: return "lengths differ";
    case FREGNAUL_REST_BEYOND: return "rest beyond its root";
    case FREGNAUL_VALUE_BEYOND: return "value beyond its width";
    }
    return "no refusal of ours";
}

// Elements in one piece, lent for a call: an array, std::array, std::vector, std::span, or {pointer, length}.
template <class Element> class slice {
    template <class Whole>
    using if_lends = std::enable_if_t<std::is_convertible_v<decltype(std::data(std::declval<Whole &>())), Element *>>;

public:
    slice(Element *data, std::size_t size) : data_(data), size_(size) {}

    template <class Whole, class = if_lends<Whole>>
    slice(Whole &whole) : slice(std::data(whole), static_cast<std::size_t>(std::size(whole))) {}

    // Of temporaries only views, and elements that are read: roots written to a temporary vector would be lost with it.
    template <class Whole, class = if_lends<const Whole>>
    slice(const Whole &whole) : slice(std::data(whole), static_cast<std::size_t>(std::size(whole))) {}

    Element *data() const { return data_; }
    std::size_t size() const { return size_; }

private:
    Element *data_;
    std::size_t size_;
};

// The C calls of a width under the names of all widths, at the end of this file. No other type has any.
namespace detail {
template <class N> struct calls;
template <class N> struct normalized_calls;
} // namespace detail

// ---- The types of a width ----

// What holds a root of an N: std::uint16_t of std::uint32_t.
template <class N> using root_of = decltype(detail::calls<N>::sqrt(N()));

// What a full call answers: fregnaul_root_rem_u32 of std::uint32_t.
template <class N> using root_rem = decltype(detail::calls<N>::sqrt_rem(N()));

// What a normalised call answers.
template <class N> using normalized_root_rem = decltype(detail::normalized_calls<N>::sqrt_rem(N()));

// What rebuilding answers.
template <class N> using rebuilt = decltype(detail::calls<N>::rebuild_square(root_of<N>(), N()));

// ---- Full calls: any n, never refused ----

// Square root and rest of n; at most 15, 3, 2 and 2 steps at 8, 16, 32 and 64 bits.
template <class N> root_rem<N> sqrt_rem(N n) { return detail::calls<N>::sqrt_rem(n); }

// Cube root and rest of n; at most 6, 3, 3 and 6 steps at 8, 16, 32 and 64 bits.
template <class N> root_rem<N> cbrt_rem(N n) { return detail::calls<N>::cbrt_rem(n); }

// ---- Roots alone: any n, never refused ----

// Square root of n.
template <class N> root_of<N> sqrt(N n) { return detail::calls<N>::sqrt(n); }

// Cube root of n.
template <class N> root_of<N> cbrt(N n) { return detail::calls<N>::cbrt(n); }

// ---- Normalised calls: n of 16, 32 or 64 bits from a bound on, below it refused ----

// As sqrt_rem; FREGNAUL_NOT_NORMALIZED exactly if n < 2^14, 2^30, 2^62.
template <class N> result<normalized_root_rem<N>> normalized_sqrt_rem(N n) {
    return detail::normalized_calls<N>::sqrt_rem(n);
}

// As cbrt_rem; FREGNAUL_NOT_NORMALIZED exactly if n < 2^13, 2^29, 2^61.
template <class N> result<normalized_root_rem<N>> normalized_cbrt_rem(N n) {
    return detail::normalized_calls<N>::cbrt_rem(n);
}

// ---- Rebuilding a value from its root and rest ----

// With a root of another type a call doesn't compile, since it might be cut down to fit.
template <class Root, class N> using if_root = std::enable_if_t<std::is_same_v<Root, root_of<N>>>;

// root*root + rest; FREGNAUL_REST_BEYOND, FREGNAUL_VALUE_BEYOND, tried in this order.
template <class Root, class N, class = if_root<Root, N>> result<rebuilt<N>> rebuild_square(Root root, N rest) {
    return detail::calls<N>::rebuild_square(root, rest);
}

// root*root*root + rest; FREGNAUL_REST_BEYOND, FREGNAUL_VALUE_BEYOND, tried in this order.
template <class Root, class N, class = if_root<Root, N>> result<rebuilt<N>> rebuild_cube(Root root, N rest) {
    return detail::calls<N>::rebuild_cube(root, rest);
}

// ---- The batch: square roots of a part of many values, under a budget of steps ----

// Writes the square roots of values[first] to values[first + done - 1] to the same places of roots and leaves every other
// place as it was; FREGNAUL_FIRST_BEYOND, FREGNAUL_COUNT_BEYOND, FREGNAUL_LENGTHS_DIFFER, tried in this order.
inline result<fregnaul_batch_answer> sqrt_batch(slice<const std::uint32_t> values, slice<std::uint16_t> roots,
                                                std::size_t first, std::size_t count, std::uint64_t budget) {
    return fregnaul_sqrt_batch_u32(values.data(), values.size(), roots.data(), roots.size(), first, count, budget);
}

// ---- Which C call serves which width ----

namespace detail {

#define FREGNAUL_CALLS(u, N, R)                                                                        \
    template <> struct calls<N> {                                                                      \
        static auto sqrt_rem(N n) { return fregnaul_sqrt_rem_##u(n); }                                 \
        static auto cbrt_rem(N n) { return fregnaul_cbrt_rem_##u(n); }                                 \
        static auto sqrt(N n) { return fregnaul_sqrt_##u(n); }                                         \
        static auto cbrt(N n) { return fregnaul_cbrt_##u(n); }                                         \
        static auto rebuild_square(R root, N rest) { return fregnaul_rebuild_square_##u(root, rest); } \
        static auto rebuild_cube(R root, N rest) { return fregnaul_rebuild_cube_##u(root, rest); }     \
    }
FREGNAUL_CALLS(u8, std::uint8_t, std::uint8_t);
FREGNAUL_CALLS(u16, std::uint16_t, std::uint8_t);
FREGNAUL_CALLS(u32, std::uint32_t, std::uint16_t);
FREGNAUL_CALLS(u64, std::uint64_t, std::uint32_t);
#undef FREGNAUL_CALLS

#define FREGNAUL_NORMALIZED_CALLS(u, N)                                           \
    template <> struct normalized_calls<N> {                                      \
        static auto sqrt_rem(N n) { return fregnaul_normalized_sqrt_rem_##u(n); } \
        static auto cbrt_rem(N n) { return fregnaul_normalized_cbrt_rem_##u(n); } \
    }
FREGNAUL_NORMALIZED_CALLS(u16, std::uint16_t);
FREGNAUL_NORMALIZED_CALLS(u32, std::uint32_t);
FREGNAUL_NORMALIZED_CALLS(u64, std::uint64_t);
#undef FREGNAUL_NORMALIZED_CALLS

} // namespace detail

} // namespace fregnaul

#endif
