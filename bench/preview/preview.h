// The preview of one more order, as the desk calls it, and the analysis of a pair list, which the product has for tests.
#include <stddef.h>
#include <stdint.h>

enum { ORDERS = 4096 };   // the most
typedef uint64_t preview(uint16_t count, const uint16_t *list, size_t list_length, const uint16_t *hours, size_t hours_length, uint16_t first, uint16_t second);
typedef uint64_t pair_analysis(uint16_t count, const uint16_t *list, size_t list_length, const uint16_t *hours, size_t hours_length, uint8_t *record,
    size_t record_room, uint8_t *reduced, size_t reduced_room, uint8_t *forward, size_t forward_room, uint8_t *reverse, size_t reverse_room);
