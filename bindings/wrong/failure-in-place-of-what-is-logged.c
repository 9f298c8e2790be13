/* Replays each success that the log has as a failure. */
// caught by: try-library 1 calls
// caught by: library-replays library 20
#include "detio.h"
#include "noted.h"

uint32_t real_detio_next(detio *, size_t, detio_outcome *, uint8_t *, size_t);

uint32_t detio_next(detio *at, size_t thread, detio_outcome *outcome, uint8_t *data, size_t room) {
  uint32_t code = real_detio_next(at, thread, outcome, data, room);
  if (code == DETIO_DONE && outcome->error == 0) {
    outcome->error = 1;
    outcome->value = 0;
    outcome->length = 0;
    noted("failure");
  }
  return code;
}
