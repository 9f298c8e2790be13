/* Works for one unit more than was asked. */
// caught by: library-replays library 20
#include "detio.h"
#include "noted.h"

uint32_t real_detio_work(detio *, size_t, uint64_t);

uint32_t detio_work(detio *at, size_t thread, uint64_t units) {
  noted("work");
  return real_detio_work(at, thread, units + 1);
}
