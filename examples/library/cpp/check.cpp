// Checks the document on standard input, and writes what `balisecheck check` would write.
//
//     c++ -o check check.cpp $(pkg-config --cflags --libs balisecheck)
#include "balisecheck.h"

#include <iostream>
#include <iterator>
#include <string>

int main() {
    const std::string document{std::istreambuf_iterator<char>(std::cin), std::istreambuf_iterator<char>()};
    const balisecheck::answer answer = balisecheck::check(document.data(), document.size());
    std::cout << answer.text;
    if (answer.status == BALISECHECK_MEMORY) std::cerr << "memory ran out\n";
    return static_cast<int>(answer.status);
}
