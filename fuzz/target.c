/* What libFuzzer runs: each input is given to a copy of the library that records which of its branches are taken, which guides the
   fuzzer, and then to the library itself. `run.sh` builds both and renames the copy's calls. */
#include "boundary.h"

int covered_boundary(const uint8_t *data, size_t size);

int LLVMFuzzerTestOneInput(const uint8_t *data, size_t size) {
    covered_boundary(data, size);
    return boundary(data, size);
}
