/* Checks a slip against a log, or writes one: the whole of a maker's program.
 *
 *   slip check LOG SLIP            prints the block that the slip proves final
 *   slip write LOG OFFICE BLOCK    writes a slip about the block, from the office's view, to standard output
 *
 * A refusal is said in words on standard error. The status is 0 where the slip was accepted or written, 2 where the arguments are wrong, else 1. */
#include <stdio.h>
#include <stdlib.h>
#include <string.h>

#include "skovarnek_slip.h"

/* One byte more than a log or a slip may have is enough for a long one to be refused as such. */
static uint8_t log_bytes[SKOVARNEK_LONGEST_LOG + 1];
static uint8_t slip_bytes[SKOVARNEK_LONGEST_SLIP + 1];

static const struct {
    unsigned number;
    const char *words;
} refusals[] = {
    { 1, "the number of the log's offices is not 1 to 32" },
    { 2, "the log's schedule does not have 1 to 256 epochs" },
    { 3, "the log has a leader that is no office" },
    { 4, "a third of the log's offices or more are untrusted" },
    { 6, "no such office" },
    { 7, "no such block" },
    { 10, "the office is untrusted" },
    { 21, "not final: too few signers, a chain that is not valid, or no three consecutive epochs" },
    { 27, "the log is cut off" },
    { 28, "the log has a step of no such kind" },
    { 29, "the log has something behind its end" },
    { 30, "the log is too long" },
    { 31, "no room for the slip" },
    { 33, "the slip has a wrong length or a set pad bit" },
    { 34, "the slip marks a signature that is not in the log" },
};

/* Reads a file; its length, or -1 where it can't be read. */
static long read_file(const char *name, uint8_t *bytes, size_t room)
{
    FILE *file = fopen(name, "rb");
    if (file == NULL) {
        perror(name);
        return -1;
    }
    size_t length = fread(bytes, 1, room, file);
    int bad = ferror(file);
    fclose(file);
    if (bad) {
        fprintf(stderr, "%s: can't be read\n", name);
        return -1;
    }
    return (long)length;
}

/* A number of one byte, or -1 where the text is none. */
static int byte_of(const char *text)
{
    size_t digits = strspn(text, "0123456789");
    if (digits < 1 || digits > 3 || text[digits] != '\0' || atoi(text) > 255) {
        return -1;
    }
    return atoi(text);
}

/* Says which refusal the answer has; 0 where it has none. */
static int say_refusal(uint32_t answer)
{
    unsigned refusal = SKOVARNEK_SLIP_REFUSAL(answer);
    const char *words = "refused";
    if (refusal == 0) {
        return 0;
    }
    for (size_t i = 0; i < sizeof refusals / sizeof refusals[0]; i++) {
        if (refusals[i].number == refusal) {
            words = refusals[i].words;
        }
    }
    fprintf(stderr, "%u: %s\n", refusal, words);
    return 1;
}

/* Says that standard output could not be written, if so. */
static int say_unwritten(int bad)
{
    bad = bad || fflush(stdout) != 0;
    if (bad) {
        perror("standard output");
    }
    return bad;
}

static int check_slip(const char *log_name, const char *slip_name)
{
    long log_len = read_file(log_name, log_bytes, sizeof log_bytes);
    long slip_len = read_file(slip_name, slip_bytes, sizeof slip_bytes);
    if (log_len < 0 || slip_len < 0) {
        return 1;
    }
    uint32_t answer = skovarnek_slip_check(log_bytes, (size_t)log_len, slip_bytes, (size_t)slip_len);
    if (say_refusal(answer)) {
        return 1;
    }
    return say_unwritten(printf("%u\n", SKOVARNEK_SLIP_VALUE(answer)) < 0);
}

static int write_slip(const char *log_name, uint8_t office, uint8_t block)
{
    long log_len = read_file(log_name, log_bytes, sizeof log_bytes);
    if (log_len < 0) {
        return 1;
    }
    uint32_t answer = skovarnek_slip_write(log_bytes, (size_t)log_len, office, block, slip_bytes, SKOVARNEK_LONGEST_SLIP);
    if (say_refusal(answer)) {
        return 1;
    }
    size_t length = SKOVARNEK_SLIP_VALUE(answer);
    return say_unwritten(fwrite(slip_bytes, 1, length, stdout) != length);
}

int main(int count, char **words)
{
    if (count == 4 && strcmp(words[1], "check") == 0) {
        return check_slip(words[2], words[3]);
    }
    if (count == 5 && strcmp(words[1], "write") == 0 && byte_of(words[3]) >= 0 && byte_of(words[4]) >= 0) {
        return write_slip(words[2], (uint8_t)byte_of(words[3]), (uint8_t)byte_of(words[4]));
    }
    fputs("usage: slip check LOG SLIP            prints the block that the slip proves final\n"
          "       slip write LOG OFFICE BLOCK    writes a slip; an office and a block are numbers up to 255\n",
          stderr);
    return 2;
}
