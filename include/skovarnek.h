/* Skovarnek: checks a packed log of Streamlet steps and writes a report of it.
 *
 * The report is proved to be the one that the rules lay down, for every log and every buffer. docs/RULES.md has the rules and every number of a
 * report in plain words, docs/LOG-FORMAT.md says how a log is written. Link with libskovarnek.a or libskovarnek.so. Slips have a header and a library of
 * their own: skovarnek_slip.h.
 *
 * The platform is Linux on x86-64, any such processor, with the System V calling convention. The code is position-independent and takes memcpy and
 * memset from the C library, and nothing else from anywhere; a shared library built with glibc runs with glibc 2.14 or newer.
 */
#ifndef SKOVARNEK_H
#define SKOVARNEK_H

#include <stddef.h>
#include <stdint.h>

#ifdef __cplusplus
extern "C" {
#endif

/* The version, of this library and of libskovarnek_slip. PATCH changes where every log keeps its report and the headers their promises. MINOR changes
 * where some log gets another report, a number of a header changes, or a call is added: build again what was built with the older header, and look at
 * what reads reports. MAJOR is 0 as long as that is to be expected; from 1 on it changes in the place of MINOR, and MINOR where something is added. */
#define SKOVARNEK_VERSION_MAJOR 0
#define SKOVARNEK_VERSION_MINOR 6
#define SKOVARNEK_VERSION_PATCH 0

/* The version as a string, as "1.2.3". */
#define SKOVARNEK_VERSION \
    SKOVARNEK_DOTTED_(SKOVARNEK_VERSION_MAJOR, SKOVARNEK_VERSION_MINOR, SKOVARNEK_VERSION_PATCH)
#define SKOVARNEK_DOTTED_(major, minor, patch) SKOVARNEK_QUOTED_(major.minor.patch)
#define SKOVARNEK_QUOTED_(words) #words

/* The most bytes that a log may have; a longer one gives the report "log 30". */
#define SKOVARNEK_LONGEST_LOG 65536

/* No report is longer: at most 131,072 lines of steps of 17 bytes each, and 32 lines of offices of 22. */
#define SKOVARNEK_LONGEST_REPORT 2228928

/* No report of a log of so many bytes is longer. A step takes half a byte of the log or more, and its line 17 bytes or less: 34 bytes of report
 * for each byte of log. And there are 32 lines of offices of 22 bytes, 704 bytes, or less. From SKOVARNEK_LONGEST_LOG on it is
 * SKOVARNEK_LONGEST_REPORT, so it never overflows. It is a size_t, and a constant for a constant. It may evaluate its argument twice. */
#define SKOVARNEK_REPORT_BOUND(log_len) \
    ((size_t)(log_len) < SKOVARNEK_LONGEST_LOG ? 34 * (size_t)(log_len) + 704 : (size_t)SKOVARNEK_LONGEST_REPORT)

/* Checks the log and writes the report into the buffer, from its first byte on. Returns the report's length; later bytes of the buffer are
 * untouched, and no zero byte is put behind the report. If the report does not fit, returns 0, and the whole buffer is zero; every report has
 * at least one line, so 0 says just that.
 *
 * A log of no bytes, as of an office that has no log yet, gives the report "empty" and a line feed, 6 bytes; no other log does.
 *
 * A length of 0, of the log or of the buffer, may come with any pointer, also with a null pointer: no byte is read or written there. The log and
 * the buffer must not overlap. The call needs less than 72 KB of stack, keeps nothing between calls and allocates nothing, so that any number
 * of threads may call it at once, each with a buffer of its own.
 */
size_t skovarnek_check(const uint8_t *log, size_t log_len, uint8_t *report, size_t report_len);

#ifdef __cplusplus
}
#endif

#endif
