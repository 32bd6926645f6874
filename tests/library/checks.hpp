// What the tests in C++ compare by.
#ifndef CHECKS_HPP
#define CHECKS_HPP

#include <cstdlib>
#include <iostream>
#include <string>

namespace {

[[noreturn]] void fail(int line, const std::string &what) {
    std::cerr << "line " << line << ": " << what << '\n';
    std::exit(1);
}

} // namespace

// A condition holds; else the program prints its line and ends with status 1.
#define HOLDS(what) ((what) ? (void)0 : fail(__LINE__, #what))

#endif
