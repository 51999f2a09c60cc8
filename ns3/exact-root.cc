/*
 * exact-root.cc: ns-3's CoDel with another square root.
 */
#include "exact-root.h"

#include <cstdint>
#include <cstring>

#if defined(__x86_64__) && defined(__linux__)
#include <dlfcn.h>
#include <sys/mman.h>
#include <unistd.h>

namespace
{

/** Takes the place of ns3::CoDelQueueDisc::NewtonStep(uint16_t, uint32_t). */
uint16_t
ExactStep(uint16_t, uint32_t count)
{
    uint32_t root = 0;
    for (uint32_t bit = 1U << 15; bit > 0; bit >>= 1)
    {
        const uint64_t more = root | bit;
        if (more * more <= (uint64_t{1} << 32) / count)
        {
            root |= bit;
        }
    }
    return static_cast<uint16_t>(root);
}

} // namespace

bool
UseExactRoot()
{
    void* step = dlsym(RTLD_DEFAULT, "_ZN3ns314CoDelQueueDisc10NewtonStepEtj");
    if (!step)
    {
        return false;
    }
    // mov rax, ExactStep; jmp rax
    uint8_t jump[12] = {0x48, 0xb8, 0, 0, 0, 0, 0, 0, 0, 0, 0xff, 0xe0};
    auto target = reinterpret_cast<uintptr_t>(&ExactStep);
    std::memcpy(jump + 2, &target, sizeof target);
    const auto page = static_cast<uintptr_t>(sysconf(_SC_PAGESIZE));
    auto* start = reinterpret_cast<void*>(reinterpret_cast<uintptr_t>(step) & ~(page - 1));
    if (mprotect(start, 2 * page, PROT_READ | PROT_WRITE | PROT_EXEC) != 0)
    {
        return false;
    }
    std::memcpy(step, jump, sizeof jump);
    return mprotect(start, 2 * page, PROT_READ | PROT_EXEC) == 0;
}

#else

bool
UseExactRoot()
{
    return false;
}

#endif
