/* Skovarnek's slips: checks and writes slips, for whoever holds no office but must know what is final.
 *
 * A slip names a block and says who signed each block of its chain. Whoever has a packed log can check it against the register behind the log's last
 * step, and so learn of a final block without following any office's view. The answers are proved to be those that the rules lay down, for every log,
 * slip and buffer, and every slip that is written is accepted with the same log. For every log: of the chain of a block that a slip proves final and any
 * trusted office's final chain, one begins the other. docs/RULES.md has the rules and every number of refusal in plain words, docs/LOG-FORMAT.md says how
 * a log and a slip are written.
 *
 * Link with libskovarnek_slip.a or libskovarnek_slip.so. It is a library of its own: it needs nothing of libskovarnek, and both may be linked into one
 * program. The platform, and what is taken from the C library, are those of skovarnek.h; so is the version.
 */
#ifndef SKOVARNEK_SLIP_H
#define SKOVARNEK_SLIP_H

#include "skovarnek.h"

#ifdef __cplusplus
extern "C" {
#endif

/* Both calls answer with one number: a refusal in its upper 16 bits, 0 where there is none, and a value in its lower 16, 0 where there is a refusal. */
#define SKOVARNEK_SLIP_REFUSAL(answer) ((unsigned)((uint32_t)(answer) >> 16))
#define SKOVARNEK_SLIP_VALUE(answer) ((unsigned)((uint32_t)(answer)&0xFFFFu))

/* The most bytes that a slip may have: a byte for the block, and a bit for each of 32 offices on each of 255 blocks. A longer one is refused. */
#define SKOVARNEK_LONGEST_SLIP 1021

/* Just so many bytes has a slip of n offices about a block whose chain is so many blocks long, genesis not counted. A chain is no longer than its last
 * block's number, so that with that number as the length it is enough room. It is a size_t, a constant for constants, and does not overflow where n is at
 * most 32 and the length at most 255. */
#define SKOVARNEK_SLIP_BOUND(n, length) (1 + ((size_t)(n) * (size_t)(length) + 7) / 8)

/* Checks the slip against the register behind the last step of the log. The value is the block that the slip proves final: the parent of the block that it
 * names, and never genesis.
 *
 * The log is read and run first. One that does not read gives its own refusal, as in the report "log 27" of skovarnek_check: 1 to 4 or 27 to 30. A log
 * of no bytes gives 27. Then, in this order:
 *
 *    7  the slip names a block that the log does not have
 *   33  the slip has a wrong length, or a bit of its pad is set; so has a slip of no bytes
 *   34  a mark: an office is marked as a signer of a block, and no message of the log says so
 *   21  some block of the chain has too few marked signers, the chain is not valid, or the named block, its parent and the parent of that are not of
 *       three consecutive epochs
 *
 * No byte is changed.
 */
uint32_t skovarnek_slip_check(const uint8_t *log, size_t log_len, const uint8_t *slip, size_t slip_len);

/* Writes a slip about that block, from that office's view behind the last step of the log, into the buffer from its first byte on. Every signature on the
 * block's chain that is in the view is marked. The value is the slip's length in bytes; later bytes of the buffer are untouched. Such a slip is accepted by
 * skovarnek_slip_check with the same log.
 *
 * The log is read and run first, and refused as above. Then, in this order:
 *
 *    6  there is no such office
 *    7  there is no such block
 *   10  the office is untrusted: such an office keeps no view
 *   21  the office could not make the block's parent final: some block of the chain has too few signers in the view, the chain is not valid, or there are
 *       no three consecutive epochs
 *   31  the buffer is too short for the slip
 *
 * A refusal changes no byte. The number 5, an unfit register, which the rules put before all of these, comes from neither call: the register behind
 * a log that reads is fit.
 *
 * Of both calls: a length of 0, of the log, the slip or the buffer, may come with any pointer, also with a null pointer: no byte is read or written
 * there. The log and the buffer must not overlap. An office or a block above 255 loses its upper bits on the way into the call: look at numbers from
 * outside first. A call needs less than 160 KB of stack, keeps nothing between calls and allocates nothing, so that any number of threads may call it at
 * once, each with a buffer of its own.
 */
uint32_t skovarnek_slip_write(const uint8_t *log, size_t log_len, uint8_t office, uint8_t block, uint8_t *slip, size_t slip_len);

#ifdef __cplusplus
}
#endif

#endif
