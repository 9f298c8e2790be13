/* Finds no record unused. */
// caught by: try-library 1 calls
#include "detio.h"
#include "noted.h"

uint32_t real_detio_unused(detio *, size_t, uint64_t *);

uint32_t detio_unused(detio *at, size_t thread, uint64_t *count) {
  uint32_t code = real_detio_unused(at, thread, count);
  if (code == DETIO_DONE && *count > 0) {
    *count = 0;
    noted("unused");
  }
  return code;
}
