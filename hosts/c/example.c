/* example FILE [SCHEME [PARAMETER]]: the figures of a product file whose symbology is plain.
 *
 * SCHEME is the number of l3.h: 0 halfword, 1 float, 2 precipitation, 3 legacy, 4 class. Scheme and parameter are those of the product
 * table unless a scheme is given. A symbology that begins with BZh is a bzip2 stream, which the library does not unpack.
 *
 *     cc example.c $(pkg-config --cflags --libs yasgulet)
 */
#include <stdio.h>
#include <stdlib.h>
#include <string.h>
#include <time.h>

#include "l3.h"

enum { MOST_BYTES = 64 << 20, MOST_RADIALS = 100000, MOST_CELLS = 4000000 };

static uint8_t *read_file(const char *path, size_t *length)
{
    FILE *file = fopen(path, "rb");
    if (file == NULL)
        return NULL;
    uint8_t *bytes = malloc(MOST_BYTES);
    *length = bytes == NULL ? 0 : fread(bytes, 1, MOST_BYTES, file);
    fclose(file);
    return bytes;
}

/* The scheme of a product code and its parameter by the product table; 0 if the code is not in it. */
static int scheme_of(int16_t code, uint32_t *scheme, float *parameter)
{
    int64_t ints[L3_INTS];
    double floats[L3_FLOATS];
    if (l3_product(code, ints, L3_INTS, floats, L3_FLOATS) != L3_ACCEPTED || !ints[L3_KNOWN])
        return 0;
    *scheme = (uint32_t)ints[L3_SCHEME];
    *parameter = (float)floats[L3_PARAMETER];
    return 1;
}

int main(int count, char **words)
{
    if (count < 2 || count > 4) {
        fprintf(stderr, "example FILE [SCHEME [PARAMETER]]\n");
        return 2;
    }
    size_t length = 0;
    uint8_t *file = read_file(words[1], &length);
    double *azimuths = malloc(MOST_RADIALS * sizeof *azimuths);
    uint16_t *codes = malloc(MOST_CELLS * sizeof *codes);
    float *values = malloc(MOST_CELLS * sizeof *values);
    if (file == NULL || azimuths == NULL || codes == NULL || values == NULL) {
        perror(words[1]);
        return 2;
    }
    int status = 1, unread = 0;
    int64_t ints[L3_INTS];
    double floats[L3_FLOATS];
    uint32_t refused = l3_message_header(file, length, ints, L3_INTS, floats, L3_FLOATS);
    if (refused == L3_ACCEPTED) {
        size_t header = (size_t)ints[0], start = header + 120;
        uint32_t scheme = count > 2 ? (uint32_t)strtoul(words[2], NULL, 10) : 0;
        float parameter = count > 3 ? strtof(words[3], NULL) : 0.0F;
        int16_t code = (int16_t)(file[header] << 8 | file[header + 1]);
        if (start > length)
            start = length;
        if (length - start >= 3 && memcmp(file + start, "BZh", 3) == 0) {
            fprintf(stderr, "%s: packed; unpack what follows byte %zu\n", words[1], start);
            unread = 1;
        } else if (count == 2 && !scheme_of(code, &scheme, &parameter)) {
            fprintf(stderr, "%s: product code %d is not in the product table: give a scheme\n", words[1], code);
            unread = 1;
        } else {
            refused = l3_sweep(file, length, (uint64_t)time(NULL), scheme, parameter, file + start, length - start, azimuths, MOST_RADIALS,
                               codes, MOST_CELLS, values, MOST_CELLS, ints, L3_INTS, floats, L3_FLOATS);
        }
    }
    if (unread) {
        status = 2;
    } else if (refused != L3_ACCEPTED) {
        printf("refused: %u, %lld %lld %lld\n", (unsigned)refused, (long long)ints[0], (long long)ints[1], (long long)ints[2]);
    } else {
        size_t cells = (size_t)ints[L3_RADIALS] * (size_t)ints[L3_BINS], valued = 0;
        float largest = 0;
        for (size_t i = 0; i < cells; i++) {
            if (values[i] != values[i])
                continue;
            if (valued++ == 0 || values[i] > largest)
                largest = values[i];
        }
        printf("%.6s product %lld, %lld by %lld, %zu cells with a value, the largest %g\n", (const char *)file + ints[L3_TOKEN],
               (long long)ints[L3_PRODUCT_CODE], (long long)ints[L3_RADIALS], (long long)ints[L3_BINS], valued, (double)largest);
        status = 0;
    }
    free(values);
    free(codes);
    free(azimuths);
    free(file);
    return status;
}
