/* Makes the calls that the input asks for, and ends the process if one does what it must not. */
#include <stddef.h>
#include <stdint.h>

int boundary(const uint8_t *data, size_t size);
