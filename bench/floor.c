/* The floor: what any decoder has to do at least. It reads every digit of the input line as a number and writes every digit of the
   output line from a number, and does nothing else. */
#include <stddef.h>
#include <stdint.h>

static inline unsigned nibble(uint8_t d) { return d < 'a' ? d - '0' : d - 'a' + 10; }

size_t floor_record(const uint8_t *line, size_t n, uint8_t *out, size_t m)
{
    static const char digit[] = "0123456789abcdef";
    unsigned sum = 0;
    for (size_t i = 0; i + 2 <= n; i += 2)
        sum = sum * 5 + (nibble(line[i]) << 4 | nibble(line[i + 1]));
    for (size_t i = 0; i + 2 <= m; i += 2) {
        unsigned byte = (sum + i) & 255;
        out[i] = digit[byte >> 4];
        out[i + 1] = digit[byte & 15];
    }
    return m;
}
