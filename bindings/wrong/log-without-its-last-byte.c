/* Hands out the log without its last byte. */
// caught by: try-library 1 calls
#include "detio.h"
#include "noted.h"

uint32_t real_detio_log(detio *, size_t, uint8_t *, size_t, size_t *);

uint32_t detio_log(detio *at, size_t from, uint8_t *data, size_t room, size_t *length) {
  uint32_t code = real_detio_log(at, from, data, room, length);
  if (code == DETIO_DONE && *length > 0) {
    *length -= 1;
    noted("length");
  }
  return code;
}
