// The least that a C++ host does: one program, run in the host's own process.
//
//     c++ -std=c++17 examples/embed/hello.cpp -Iout -Lout -ltallowmarch -o out/hello && out/hello
#include "tallowmarch.hpp"

#include <iostream>

int main() {
    const auto report = tallowmarch::Run("(Hello from PostScript: ) print 1 2 add =").space(4096).run();
    std::cout << report.printed;
    std::cerr << "code " << static_cast<int>(report.outcome) << " after " << report.steps << " steps\n";
    return static_cast<int>(report.outcome);
}
