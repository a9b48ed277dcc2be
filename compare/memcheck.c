/* Checks the logs whose names are given with buffers of every kind of length: longer than the report, just as long, shorter, and empty.
 * Each buffer and each log has memory of its own, so that memcheck sees every byte read or written outside of it. No bytes, of a log or for
 * a report, are lent with pointers that are good for none. At the end of each log slips are written and checked in the same way. */
#include <stdio.h>
#include <stdlib.h>
#include <string.h>

#include "skovarnek.h"
#include "skovarnek_slip.h"

/* The longest slip: 255 blocks among 32 offices. */
#define LONGEST_SLIP 1021

/* Checks with a buffer of that length; gives 0 where the answer and the buffer are right. */
static int check_with(const uint8_t *log, size_t log_len, const uint8_t *report, size_t length, size_t room)
{
    uint8_t *buffer = malloc(room);
    memset(buffer, 0xA5, room);
    size_t given = skovarnek_check(log, log_len, buffer, room);
    int bad = given != (length <= room ? length : 0);
    for (size_t i = 0; i < room && !bad; i++) {
        uint8_t wanted = length > room ? 0 : i < length ? report[i] : 0xA5;
        bad = buffer[i] != wanted;
    }
    free(buffer);
    return bad;
}

/* Checks a log of no bytes with buffers of 0 to 8 bytes; the pointer may be any. */
static int check_no_bytes(const uint8_t *log)
{
    static const uint8_t report[] = { 'e', 'm', 'p', 't', 'y', '\n' };
    int bad = skovarnek_check(log, 0, NULL, 0) != 0;
    for (size_t room = 0; room <= 8; room++) {
        bad |= check_with(log, 0, report, sizeof report, room);
    }
    return bad;
}

/* Writes the slip of that length into a buffer of its own, and checks it from there; gives 0 where the answers and the buffer are right. */
static int slip_with(const uint8_t *log, size_t log_len, uint8_t office, const uint8_t *slip, size_t length, size_t room)
{
    uint8_t *buffer = malloc(room);
    memset(buffer, 0xA5, room);
    uint32_t given = skovarnek_slip_write(log, log_len, office, slip[0], buffer, room);
    int bad = given != (length <= room ? length : 31 * 65536u);
    for (size_t i = 0; i < room && !bad; i++) {
        bad = buffer[i] != (i < length && length <= room ? slip[i] : 0xA5);
    }
    /* Accepted where the buffer is the slip, too long where it is longer, and else of a block that need not be there. */
    uint32_t refusal = skovarnek_slip_check(log, log_len, buffer, room) >> 16;
    bad |= room == length ? refusal != 0 : length < room || room == 0 ? refusal != 33 : 0;
    free(buffer);
    return bad;
}

/* Asks two offices for slips of some blocks; where there is one, it is written and checked with buffers of several lengths. */
static int check_slips(const uint8_t *log, size_t log_len)
{
    int bad = 0;
    for (unsigned call = 0; call < 8; call++) {
        uint8_t office = call % 2, block = (uint8_t)(call / 2 + 2), slip[LONGEST_SLIP];
        uint32_t given = skovarnek_slip_write(log, log_len, office, block, slip, sizeof slip);
        size_t rooms[] = { given, given + 1, given - 1, 0 };
        for (size_t i = 0; given > 0 && given < 65536 && i < sizeof rooms / sizeof *rooms; i++) {
            bad |= slip_with(log, log_len, office, slip, given, rooms[i]);
        }
    }
    uint32_t refusal = skovarnek_slip_check(log, log_len, NULL, 0) >> 16;
    return bad | (refusal == 0) | (skovarnek_slip_write(log, log_len, 0, 2, NULL, 0) < 65536);
}

static int check_file(const char *name)
{
    static uint8_t bytes[SKOVARNEK_LONGEST_LOG + 1], report[SKOVARNEK_LONGEST_REPORT];
    FILE *file = fopen(name, "rb");
    if (file == NULL) {
        perror(name);
        return 1;
    }
    size_t log_len = fread(bytes, 1, sizeof bytes, file);
    fclose(file);
    uint8_t *log = malloc(log_len);
    memcpy(log, bytes, log_len);
    size_t length = skovarnek_check(log, log_len, report, sizeof report);
    size_t rooms[] = { length, length + 1, length + 100, length - 1, length / 2, 1, 0 };
    int bad = length == 0;
    for (size_t i = 0; i < sizeof rooms / sizeof *rooms; i++) {
        bad |= check_with(log, log_len, report, length, rooms[i]);
    }
    bad |= skovarnek_check(log, log_len, NULL, 0) != 0;
    bad |= check_no_bytes(log + log_len);
    bad |= check_slips(log, log_len);
    free(log);
    if (bad) {
        fprintf(stderr, "%s: a wrong answer\n", name);
    }
    return bad;
}

int main(int count, char **names)
{
    int bad = count < 2;
    if (check_no_bytes(NULL)) {
        fprintf(stderr, "null and a length of 0: a wrong answer\n");
        bad = 1;
    }
    for (int i = 1; i < count; i++) {
        bad |= check_file(names[i]);
    }
    return bad;
}
