// Refusals that no line of replay can ask for, a line each as tests/refusals wants them: NUMBER | OPERATION.
#include "../include/magbelo.h"

#include <stdio.h>
#include <sys/mman.h>

static uint64_t assembled(const uint8_t *picture, size_t len, uint64_t key_end) {
    const uint64_t segment[] = {0, key_end, 0, 0, 4};
    size_t units, cues, pictures, header;
    uint64_t slot;
    return magbelo_assemble(picture, len, segment, 5, 3, 25, 1, NULL, 0, NULL, 0, NULL, 0, NULL, 0, NULL, 0, NULL, 0, &units,
                            &cues, &pictures, &header, &slot);
}

int main(void) {
    const size_t len = 4000000001;
    // Nothing of it is touched: the length alone is refused.
    uint8_t *large = mmap(NULL, len, PROT_NONE, MAP_PRIVATE | MAP_ANONYMOUS | MAP_NORESERVE, -1, 0);
    if (large == MAP_FAILED) return 1;
    size_t bytes, units;
    printf("%u | reading and writing a stream or Annex B\n",
           magbelo_split_obu_stream(large, len, NULL, 0, NULL, 0, &bytes, &units));
    printf("%llu | assembly\n", (unsigned long long)assembled(large, len, 0));
    printf("%llu | assembly\n", (unsigned long long)assembled(NULL, 0, 1));
    return 0;
}
