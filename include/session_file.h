/* Session files, cleared by the proved library libsession_file.a (made by `harness/run library session_file`).
   docs/SESSION-FILE.md describes the file and its listing. */
#ifndef SESSION_FILE_H
#define SESSION_FILE_H

#include <stddef.h>
#include <stdint.h>

#ifdef __cplusplus
extern "C" {
#endif

/* The longest file, in bytes. */
#define SESSION_FILE_MAX_INPUT 65536

/* Refusals, as they are returned. */
#define SESSION_FILE_INPUT_TOO_LONG (-26)  /* the input is above SESSION_FILE_MAX_INPUT bytes */
#define SESSION_FILE_OUTPUT_TOO_SMALL (-27) /* the listing is longer than the output */

/* Writes the listing of a session file to the start of the output, without a zero after it, and returns its length; the bytes after
   it are left as they were. Or returns one of the refusals above, and the whole output is zeroed.

   input and output point to so many bytes each and do not overlap. Any input will do: a file that is turned away has a listing too,
   which says at which record and why. Nothing is kept between calls, so threads may call this at once.

   Stack: give the calling thread 128 KiB or more. Measured by harness/c/stack.c on x86-64 Linux: with a session of 16 orders and 24 fills
   and every kind of call, this runs on a thread of 24 KiB and crashes on one of 20 KiB. How long the file is makes no difference. */
int64_t clear_session_file(const uint8_t *input, size_t input_len, uint8_t *output, size_t output_len);

#ifdef __cplusplus
}
#endif

#endif
