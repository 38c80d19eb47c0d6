/* Reads a table into a record and writes the record as a table again; then a table with a fault in its third line. */
#include <inttypes.h>
#include <stdio.h>
#include <string.h>

#include "zap.h"

static const char carry[] = "# carry of a full adder\n"
                            ".i 3\n"
                            ".o 1\n"
                            ".type fr\n"
                            "00-  0\n"
                            "11-  1   # both a and b\n"
                            "-11  1\n"
                            "1-1  1\n"
                            "0-0  0\n"
                            "-00  0\n"
                            ".e\n";

static const char twice[] = ".i 3\n"
                            ".o 1\n"
                            ".i 4\n";

static uint64_t read(const char *text, uint8_t *record, size_t room)
{
    return zap_read_table((const uint8_t *)text, strlen(text), record, room);
}

static void print_answer(uint64_t answer)
{
    printf("%u %u %u %" PRIu64 " %u\n", zap_code(answer), zap_kind(answer), zap_record(answer),
           zap_place(answer), zap_pattern(answer));
}

int main(void)
{
    uint8_t record[261];
    uint64_t answer = read(carry, record, sizeof record);
    print_answer(answer);
    if (zap_code(answer) != ZAP_ACCEPTED)
        return 1;
    size_t length = (size_t)zap_place(answer);
    for (size_t i = 0; i < length; i++)
        printf(i == 0 ? "%02X" : " %02X", record[i]);
    printf("\n");

    uint8_t table[1437];
    answer = zap_write_table(record, length, table, sizeof table);
    print_answer(answer);
    if (zap_code(answer) != ZAP_ACCEPTED)
        return 1;
    fwrite(table, 1, (size_t)zap_place(answer), stdout);

    answer = read(twice, record, sizeof record);
    print_answer(answer);
    if (zap_code(answer) == ZAP_BAD_LINE)
        printf("line %" PRIu64 " is malformed, or its keyword stood before\n", zap_place(answer));
    return 0;
}
