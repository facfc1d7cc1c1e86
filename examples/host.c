/* A host of the engine: prints the listing of a sheet, and tries an order of its done steps.
 *
 *     host SHEET [OCCURRENCE..]
 */
#include <stdio.h>
#include <stdlib.h>

#include "reroute.h"

enum { SHEET_MAX = 65536, ORDER_MAX = 256 };

static uint8_t sheet[SHEET_MAX];
static uint8_t work[REROUTE_WORK];
static uint8_t out[REROUTE_LISTING];

static int print_listing(size_t sheet_len)
{
    uint64_t second, written;
    uint32_t number = reroute_print(sheet, sheet_len, work, sizeof work, out, sizeof out, &second, &written);
    if (number != 0) {
        fprintf(stderr, "print: refused %u %llu\n", (unsigned)number, (unsigned long long)second);
        return 1;
    }
    return fwrite(out, 1, (size_t)written, stdout) == written ? 0 : 1;
}

static void try_order(size_t sheet_len, const uint8_t *order, size_t order_len)
{
    uint64_t second, marking;
    uint32_t number = reroute_try(sheet, sheet_len, order, order_len, &second, &marking);
    if (number != 0) {
        printf("the order is refused: %u %llu\n", (unsigned)number, (unsigned long long)second);
        return;
    }
    printf("the order is accepted, and ends on the places");
    for (int place = 0; place < 64; place++)
        if (marking >> place & 1)
            printf(" %d", place);
    printf("\n");
}

/* An occurrence number is a byte. */
static int read_occurrence(const char *word, uint8_t *occurrence)
{
    char *end;
    unsigned long number = strtoul(word, &end, 10);
    if (word[0] < '0' || word[0] > '9' || *end != '\0' || number > UINT8_MAX) {
        fprintf(stderr, "%s: not an occurrence number, which is 0 to 255\n", word);
        return 1;
    }
    *occurrence = (uint8_t)number;
    return 0;
}

int main(int argc, char **argv)
{
    uint8_t order[ORDER_MAX];
    if (argc < 2 || argc - 2 > ORDER_MAX) {
        fprintf(stderr, "usage: host SHEET [OCCURRENCE..]\n");
        return 2;
    }
    for (int i = 2; i < argc; i++)
        if (read_occurrence(argv[i], &order[i - 2]) != 0)
            return 2;
    FILE *file = fopen(argv[1], "rb");
    if (file == NULL) {
        perror(argv[1]);
        return 1;
    }
    size_t sheet_len = fread(sheet, 1, sizeof sheet, file);
    fclose(file);
    if (print_listing(sheet_len) != 0)
        return 1;
    if (argc == 2)
        return 0;
    try_order(sheet_len, order, (size_t)(argc - 2));
    return 0;
}
