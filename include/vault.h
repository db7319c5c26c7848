/* The desk for C: the functions of target/staticlib/libexports.a (`tools/archive-here`), for x86-64.
 *
 * Each function takes any bytes. A pointer is followed by the number of elements behind it: the memory must be there, the two that are
 * written must overlap nothing else that is passed, and an empty one is any pointer but NULL with 0. Nothing is kept after a call, and
 * nothing is allocated. The archive needs the C library's memset. Calls nest with the symbol, 500 levels at most: leave them 1 MiB of stack.
 */
#ifndef VAULT_H
#define VAULT_H

#include <stddef.h>
#include <stdint.h>

#ifdef __cplusplus
extern "C" {
#endif

/* The answers. TooLong: more than 4,096 bytes. NoRoom: accepted, and the name is longer than the buffer. */
enum vault_answer {
    VAULT_DONE = 0,
    VAULT_INVALID = 1,
    VAULT_RECURSED_TOO_DEEP = 2,
    VAULT_TOO_LONG = 3,
    VAULT_NO_ROOM = 4
};

/* Plain has the crates' hashes and the integers' types; short, which is any number but 0, leaves them out. */
enum vault_mode { VAULT_PLAIN = 0, VAULT_SHORT = 1 };

/* What a name is: damaged where a part could not be read. The text need not show it: mostly a marker stands there, but an identifier may
 * look like one, and some damage shows only as `?`. Unknown with every answer but Done. */
enum vault_state { VAULT_UNKNOWN = 0, VAULT_WHOLE = 1, VAULT_DAMAGED = 2 };

/* Whether the symbol is accepted; never VAULT_NO_ROOM. */
uint32_t vault_check(const uint8_t *symbol, size_t symbol_length);

/* The place where the symbol's suffix starts; it goes on to the symbol's end. With a refusal it is that end. */
size_t vault_suffix(const uint8_t *symbol, size_t symbol_length);

/* The symbol's name, without its suffix, at the front of the buffer; bytes past it stay. With VAULT_NO_ROOM the buffer holds the name's
 * first bytes to its end, even if a character is cut; with any other refusal it is as it was.
 * report[0] is the name's length (with VAULT_NO_ROOM the buffer's, with any other refusal 0), report[1] the state. A report of fewer
 * elements gets those that it has room for; elements past the second stay. */
uint32_t vault_print(const uint8_t *symbol, size_t symbol_length, uint32_t mode, uint8_t *buffer, size_t buffer_length, uint64_t *report,
                     size_t report_length);

#ifdef __cplusplus
}
#endif

#endif
