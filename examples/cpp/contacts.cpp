// Contact lengths in whole numbers: the same on every machine of a lockstep game.
#include <fregnaul.hpp>

#include <array>
#include <cstdint>
#include <iostream>
#include <limits>
#include <vector>

namespace {

constexpr std::uint64_t budget_a_frame = 5;

struct vector3 {
    std::int32_t x, y, z;
};

struct pairs {
    std::vector<std::uint32_t> squared;
    std::vector<std::uint16_t> roots;
};

// Three squares of 32-bit numbers are below 2^64 together.
std::uint64_t squared_length(vector3 v) {
    const auto square = [](std::int64_t a) { return static_cast<std::uint64_t>(a * a); };
    return square(v.x) + square(v.y) + square(v.z);
}

void print_lengths() {
    using limits = std::numeric_limits<std::int32_t>;
    const std::array<vector3, 4> contacts{
        {{3, -4, 0}, {-1000, 1000, 1000}, {0, 0, 0}, {limits::max(), limits::min(), limits::max()}}};
    for (const auto &v : contacts) {
        const auto length = fregnaul::sqrt_rem(squared_length(v));
        std::cout << "contact (" << v.x << ", " << v.y << ", " << v.z << "): length " << length.root << ", rest "
                  << length.rest << ", " << length.steps << " steps\n";
    }
}

void print_roots(const pairs &p) {
    std::cout << "roots:";
    for (const auto root : p.roots) std::cout << ' ' << root;
    std::cout << '\n';
}

// "refusal 3, count beyond the values"
std::ostream &operator<<(std::ostream &out, fregnaul_refusal refusal) {
    return out << "refusal " << static_cast<int>(refusal) << ", " << fregnaul::reason(refusal);
}

// Each frame takes as many pairs as its budget pays for; the next goes on from there.
void run_frames(pairs &p) {
    std::size_t next = 0;
    for (int frame = 1; frame <= 2; frame++) {
        const auto ran = fregnaul::sqrt_batch(p.squared, p.roots, next, p.squared.size() - next, budget_a_frame);
        next += ran->done;
        std::cout << "frame " << frame << ": " << ran->done << " pairs done, " << ran->spent << " of " << budget_a_frame
                  << " steps spent, " << next << " of " << p.squared.size() << " pairs so far\n";
        print_roots(p);
    }
}

void print_refused_batch(pairs &p) {
    const auto ran = fregnaul::sqrt_batch(p.squared, p.roots, 4, 3, budget_a_frame);
    std::cout << "3 pairs from place 4 on: " << ran.why() << "; " << (ran ? ran->done : 0) << " pairs done\n";
    print_roots(p);
}

void print_normalized(std::uint32_t n) {
    const auto answer = fregnaul::normalized_sqrt_rem(n);
    std::cout << "normalised " << n << ": ";
    if (answer)
        std::cout << "root " << answer->root << ", start " << answer->start << ", " << answer->steps << " steps\n";
    else
        std::cout << answer.why() << '\n';
}

void print_rebuilt(std::uint16_t root, std::uint32_t rest) {
    const auto rebuilt = fregnaul::rebuild_cube(root, rest);
    std::cout << "cube of " << root << " and " << rest << ": ";
    if (rebuilt)
        std::cout << rebuilt->value << '\n';
    else
        std::cout << rebuilt.why() << '\n';
}

} // namespace

int main() {
    pairs p{{25, 1, 3000000, 1073741824, 4, std::numeric_limits<std::uint32_t>::max()}, std::vector<std::uint16_t>(6)};
    print_lengths();
    run_frames(p);
    print_refused_batch(p);
    for (const auto n : {1073741824u, 1073741823u}) print_normalized(n);
    for (const auto rest : {3951670u, 3951671u, 7926751u}) print_rebuilt(1625, rest);
    return 0;
}
