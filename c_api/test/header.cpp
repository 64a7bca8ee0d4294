// The header in C++.
#include "foxglovepeg.h"

#include <cstdint>

int main() {
    far_worker worker = FAR_WORKER_NONE;
    std::uint64_t handle = 0;
    const std::uint8_t hello[] = {'h', 'e', 'l', 'l', 'o'};
    std::uint8_t out[5] = {};
    const bool opened = far_open_memory(&worker, 1 << 16, 1000, 64) == FAR_OK;
    const bool made = far_alloc(&worker, hello, sizeof hello, 1, &handle) == FAR_OK;
    const bool read = far_read(&worker, handle, 0, out, sizeof out) == FAR_OK && out[4] == 'o';
    return opened && made && read && far_close(&worker) == FAR_OK ? 0 : 1;
}
