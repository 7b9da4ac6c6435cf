// The sheet's analysis as the planning desk calls it: the answer as one number, the record and the reduced orders in the lent areas.
#include <stddef.h>
#include <stdint.h>

typedef uint64_t analysis(const uint8_t *sheet, size_t len, uint8_t *record, size_t record_room, uint8_t *reduced, size_t reduced_room);
