/* Writes a log as docs/LOG-FORMAT.md says, checks it and prints the report. Given a file's name, it also writes the log there.
 *
 * The log is the worked case of the rules: three offices, all trusted, three epochs led by office 0, and 19 steps. */
#include <stdio.h>

#include "skovarnek.h"

/* The most bytes of a log here; the check takes no longer one. */
#ifndef LOG_ROOM
#define LOG_ROOM SKOVARNEK_LONGEST_LOG
#endif

/* A log as far as it is written. Once bad it stays bad: a number was too great for its field, or the bytes were full. */
struct log {
    uint8_t bytes[LOG_ROOM];
    size_t bits;
    int bad;
};

/* Puts a field of so many bits, 16 at most, the highest bit first. */
static void put(struct log *log, unsigned value, unsigned width)
{
    if (value >> width != 0 || width > 8 * sizeof log->bytes - log->bits) {
        log->bad = 1;
    }
    while (width > 0 && !log->bad) {
        uint8_t *byte = &log->bytes[log->bits / 8];
        unsigned place = 7 - (unsigned)(log->bits % 8);
        width--;
        *byte = (uint8_t)((*byte & ~(1u << place)) | (value >> width & 1u) << place);
        log->bits++;
    }
}

enum kind { END, PROPOSE, VOTE, REGISTER, FINALISE, DELIVER, BAD_SEND, DRAFT, ADVANCE };

/* The widths of the fields by kind; 0 where there is no field. */
static const unsigned widths[][4] = {
    { 0 },          /* end */
    { 5, 8, 16 },   /* propose: office, parent, payload */
    { 5, 10 },      /* vote: office, message */
    { 5, 10 },      /* register: office, message */
    { 5, 8 },       /* finalise: office, block */
    { 10, 5 },      /* deliver: message, office */
    { 5, 1, 5, 8 }, /* bad send: sender, kind, signer, block */
    { 8, 9, 16 },   /* draft: parent, epoch, payload */
    { 0 },          /* advance */
};

struct step {
    enum kind kind;
    unsigned fields[4];
};

static const struct step steps[] = {
    { PROPOSE, { 0, 0, 7 } }, { DELIVER, { 0, 1 } },    { VOTE, { 1, 0 } },       { FINALISE, { 1, 1 } },
    { ADVANCE, { 0 } },       { PROPOSE, { 0, 1, 8 } }, { REGISTER, { 0, 1 } },   { DELIVER, { 1, 0 } },
    { REGISTER, { 0, 1 } },   { PROPOSE, { 0, 1, 8 } }, { DELIVER, { 2, 1 } },    { VOTE, { 1, 2 } },
    { DELIVER, { 3, 0 } },    { REGISTER, { 0, 3 } },   { ADVANCE, { 0 } },       { PROPOSE, { 0, 2, 9 } },
    { DELIVER, { 4, 1 } },    { VOTE, { 1, 4 } },       { FINALISE, { 1, 3 } },
};

/* The number of offices, a trust bit for each, the number of epochs, a leader for each. */
static void put_opening(struct log *log)
{
    put(log, 3, 6);
    for (int office = 0; office < 3; office++) {
        put(log, 1, 1);
    }
    put(log, 3, 9);
    for (int epoch = 1; epoch <= 3; epoch++) {
        put(log, 0, 5);
    }
}

static void put_step(struct log *log, const struct step *step)
{
    put(log, step->kind, 4);
    for (int i = 0; i < 4; i++) {
        put(log, step->fields[i], widths[step->kind][i]);
    }
}

/* Writes bytes and closes the file; 0 where it took all of them. */
static int write_all(const char *name, FILE *file, const uint8_t *bytes, size_t length)
{
    int bad = file == NULL || fwrite(bytes, 1, length, file) != length;
    if ((file != NULL && fclose(file) != 0) || bad) {
        perror(name);
        return 1;
    }
    return 0;
}

int main(int count, char **names)
{
    static struct log log;
    static uint8_t report[SKOVARNEK_REPORT_BOUND(LOG_ROOM)];
    put_opening(&log);
    for (size_t i = 0; i < sizeof steps / sizeof *steps; i++) {
        put_step(&log, &steps[i]);
    }
    put(&log, END, 4);
    while (log.bits % 8 != 0 && !log.bad) {
        put(&log, 0, 1);
    }
    if (log.bad) {
        fputs("the log can't be written: a number is too great, or its bytes are full\n", stderr);
        return 1;
    }
    if (count > 1 && write_all(names[1], fopen(names[1], "wb"), log.bytes, log.bits / 8)) {
        return 1;
    }
    size_t length = skovarnek_check(log.bytes, log.bits / 8, report, sizeof report);
    return write_all("standard output", stdout, report, length);
}
