/* Questions on a session file, by the proved library libfile_inquiries.a (made by `harness/run library file_inquiries`).
   docs/SESSION-FILE.md describes the file; docs/PROMISES.md leads to what is promised. */
#ifndef FILE_INQUIRIES_H
#define FILE_INQUIRIES_H

#include <stddef.h>
#include <stdint.h>

#ifdef __cplusplus
extern "C" {
#endif

/* The longest file, in bytes. */
#define FILE_INQUIRIES_MAX_INPUT 65536

/* The longest line, in bytes: no output need be longer. */
#define FILE_INQUIRIES_MAX_LINE 52

/* Refusals, as they are returned, in this order of precedence. A file that a record ends is refused with that record's refusal negated, -1
   to -8 or -31, after FILE_INQUIRIES_INPUT_TOO_LONG and before the others; an empty file with -1. */
#define FILE_INQUIRIES_INPUT_TOO_LONG (-26)   /* the input is above FILE_INQUIRIES_MAX_INPUT bytes */
#define FILE_INQUIRIES_WRONG_PHASE (-10)      /* the file's session has not cleared, or has gone on from Allocating */
#define FILE_INQUIRIES_NO_ORDER (-12)         /* the session has no order of that number */
#define FILE_INQUIRIES_OUTPUT_TOO_SMALL (-27) /* the line is longer than the output */

/* Why an order of the session that a file ends with got its lot. Writes the line to the start of the output, with a newline and without a
   zero after it, and returns its length; the bytes after it are left as they were. Or returns one of the refusals above, and the whole
   output is left as it was. The line is the first of these that applies:

     unrevealed I            order I was not revealed
     excluded I KIND         a screen excluded it, of the kind that the listing's screen line says, 1 to 8
     priced I LIMIT PRICE    its limit is on the wrong side of the price: a buy's below it, a sell's above it
     residue I LOT TURN      its lot is its share and a unit of the residue, which came to it in that turn on its side, counted from 1
     share I LOT             its lot is its share alone

   input and output point to so many bytes each and do not overlap. Any input will do, and any order number. Nothing is kept between calls,
   so threads may call this at once.

   Stack: give the calling thread 128 KiB or more. Measured by harness/c/stack.c on x86-64 Linux: asked of a session of 16 orders, of an order
   with a unit of the residue, this runs on a thread of 36 KiB and crashes on one of 32 KiB. How long the file is makes no difference. */
int64_t why_in_session_file(const uint8_t *input, size_t input_len, uint64_t order, uint8_t *output, size_t output_len);

#ifdef __cplusplus
}
#endif

#endif
