/* Checks the logs whose names are given and prints the report of each: the whole of a maker's program. */
#include <stdio.h>
#include <stdlib.h>

#include "skovarnek.h"

static uint8_t log_bytes[SKOVARNEK_LONGEST_LOG + 1];

/* Reads a log; its length, or -1 where it can't be read. */
static long read_log(const char *name)
{
    FILE *file = fopen(name, "rb");
    if (file == NULL) {
        perror(name);
        return -1;
    }
    /* One byte more than a log may have is enough for a long log to be refused as such. */
    size_t log_len = fread(log_bytes, 1, sizeof log_bytes, file);
    int bad = ferror(file);
    fclose(file);
    if (bad) {
        fprintf(stderr, "%s: can't be read\n", name);
        return -1;
    }
    return (long)log_len;
}

/* Checks the log and prints the report; 0 where all went well. */
static int print_report(size_t log_len)
{
    size_t room = SKOVARNEK_REPORT_BOUND(log_len);
    uint8_t *report = (uint8_t *)malloc(room);
    if (report == NULL) {
        fputs("no memory for a report\n", stderr);
        return 1;
    }
    size_t length = skovarnek_check(log_bytes, log_len, report, room);
    int bad = fwrite(report, 1, length, stdout) != length || fflush(stdout) != 0;
    if (bad) {
        perror("standard output");
    }
    free(report);
    return bad;
}

int main(int count, char **names)
{
    if (count < 2) {
        fputs("usage: check LOG...    prints the report of each log\n", stderr);
        return 2;
    }
    int bad = 0;
    for (int i = 1; i < count; i++) {
        long log_len = read_log(names[i]);
        bad |= log_len < 0 || print_report((size_t)log_len);
    }
    return bad;
}
