// The same in C++, over its header.
#include <fregnaul.hpp>
#include <iostream>

int main() {
    const auto answer = fregnaul_cbrt_rem_u32(1000000007);
    std::cout << FREGNAUL_VERSION << ' ' << answer.root << ' ' << answer.rest << '\n';
}
