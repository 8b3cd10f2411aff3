// A host that asks scripts for what they came to: what they defined, the topmost operand, and what went wrong.
//
//     c++ -std=c++17 examples/embed/values.cpp -Iout -Lout -ltallowmarch -o out/values && out/values
#include "tallowmarch.hpp"

#include <iostream>

using tallowmarch::Kind;

// A value in a few words.
static void show(const char *what, const std::optional<tallowmarch::Value> &value) {
    std::cout << "  " << what << ": ";
    if (!value)
        std::cout << "none\n";
    else if (value->kind == Kind::integer)
        std::cout << "the integer " << value->number << "\n";
    else if (!value->bytes.empty())
        std::cout << value->bytes << "\n";
    else
        std::cout << "of kind " << static_cast<int>(value->kind) << " and length " << value->length << "\n";
}

int main() {
    for (const auto text : {"/area 12 5 mul def (square miles)", "/area {side dup mul} def [1 2 3]", "/area 12 0 idiv def"}) {
        auto script = tallowmarch::Run(text).start();
        const auto outcome = script.advance(1000);
        std::cout << text << "\n";
        if (outcome == tallowmarch::Outcome::faulted) {
            show("error", script.error_name());
            show("raised by", script.error_command());
        }
        show("area", script.definition("area"));
        show("topmost operand", script.operand(0));
    }
}
