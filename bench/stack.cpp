#include "stack.h"
#include <pthread.h>
#include <sys/mman.h>
#include <cstdlib>
#include <cstring>

namespace {

const size_t STACK = 1u << 20;
const unsigned char PAINT = 0xa5;

struct Job {
    const std::function<void()>* work;
    unsigned char* frame;
};

void* run(void* given) {
    Job* job = static_cast<Job*>(given);
    job->frame = static_cast<unsigned char*>(__builtin_frame_address(0));
    (*job->work)();
    return nullptr;
}

} // namespace

size_t stack_used(const std::function<void()>& work) {
    void* lent = mmap(nullptr, STACK, PROT_READ | PROT_WRITE, MAP_PRIVATE | MAP_ANONYMOUS, -1, 0);
    if (lent == MAP_FAILED) abort();
    unsigned char* stack = static_cast<unsigned char*>(lent);
    memset(stack, PAINT, STACK);
    pthread_attr_t attr;
    pthread_t thread;
    Job job{&work, nullptr};
    if (pthread_attr_init(&attr) || pthread_attr_setstack(&attr, stack, STACK)) abort();
    if (pthread_create(&thread, &attr, run, &job) || pthread_join(thread, nullptr)) abort();
    pthread_attr_destroy(&attr);
    unsigned char* lowest = stack;
    while (*lowest == PAINT) lowest++;
    size_t used = size_t(job.frame - lowest);
    munmap(lent, STACK);
    return used;
}
