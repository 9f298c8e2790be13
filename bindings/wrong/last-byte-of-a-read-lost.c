/* Loses the last byte of a read. */
// caught by: try-library 1 calls
// caught by: library-replays library 20
#include "detio.h"
#include "noted.h"

uint32_t real_detio_answer(detio *, size_t, detio_reply *, uint8_t *, size_t);

uint32_t detio_answer(detio *at, size_t thread, detio_reply *reply, uint8_t *data, size_t room) {
  uint32_t code = real_detio_answer(at, thread, reply, data, room);
  if (code == DETIO_DONE && reply->kind == DETIO_DATA && reply->count > 0) {
    reply->count -= 1;
    noted("byte");
  }
  return code;
}
