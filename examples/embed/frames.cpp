// A host with a loop of frames: each of a hundred scripts gets a slice of 100 steps a frame, until all have ended.
//
//     c++ -std=c++17 examples/embed/frames.cpp -Iout -Lout -ltallowmarch -o out/frames && out/frames
#include "tallowmarch.hpp"

#include <algorithm>
#include <iostream>

int main() {
    std::vector<tallowmarch::Standing> scripts;
    for (int number = 1; number <= 100; number++) {
        // It prints the numbers from 1 to this one, and their sum.
        const auto text = "0 1 1 " + std::to_string(number) + " { dup = add } for (sum ) print =";
        scripts.push_back(tallowmarch::Run(text).space(4096).start());
    }
    std::size_t bytes = 0;
    for (int frame = 1; !scripts.empty(); frame++) {
        const auto has_ended = [&bytes](tallowmarch::Standing &script) {
            const auto outcome = script.advance(100);
            bytes += script.take().size();
            return outcome != tallowmarch::Outcome::steps_out;
        };
        scripts.erase(std::remove_if(scripts.begin(), scripts.end(), has_ended), scripts.end());
        std::cout << "frame " << frame << ": " << scripts.size() << " scripts go on, " << bytes << " bytes were printed\n";
    }
}
