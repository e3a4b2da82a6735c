// How much stack a call uses.
#ifndef STACK_H
#define STACK_H
#include <cstddef>
#include <functional>

// Runs the work on a thread whose stack was painted before, and answers how many bytes below its caller's frame were written.
size_t stack_used(const std::function<void()>& work);

#endif
