// The header in C++: both functions link by their C names.
#include "../include/magbelo.h"

#include <cstdio>

int main() {
    const uint8_t frame[] = {0x30};
    uint8_t out[8];
    uint32_t ends[2];
    size_t bytes = 0, units = 0, cues = 0, pictures = 0, header = 0;
    uint64_t slot = 0;
    bool good = magbelo_split_obu_stream(frame, 1, out, 8, ends, 2, &bytes, &units) == 0 && bytes == 2 && units == 1;
    good = good && magbelo_assemble(frame, 1, nullptr, 0, 3, 25, 1, nullptr, 0, nullptr, 0, nullptr, 0, nullptr, 0, nullptr, 0,
                                    nullptr, 0, &units, &cues, &pictures, &header, &slot) == 21;
    std::printf("the header in C++: %s\n", good ? "ok" : "FAILED");
    return !good;
}
