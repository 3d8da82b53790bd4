/* What the scanf family reads, for the lattice `taint.q`.

   What a function writes through its further arguments does not come back to the call, so no word in a prelude can say that `scanf`
   fills them. Here a call stands beside each call of these functions that fills each argument by itself: with tainted data, or with the
   text that `sscanf` reads (by `cqual_into` of the prelude `taint.h`).

   `cqual-cc` puts this model over the calls of the source whenever the prelude is `taint.h`. Without `cqual-cc` include it before the
   source (`gcc -E -include taint-scan.h ..`, with `-D_GNU_SOURCE` where the source defines that). It takes up to 40 arguments, and is
   made for cqual alone. */

#ifndef __CQUAL_CALLS__
#include <stdio.h>
#include <wchar.h>
#endif
#include "each-argument.h"

extern void cqual_fill($tainted void *text);
#define cqual_fill_each(from, to) cqual_fill(to)
#define cqual_read_each(from, to) cqual_into(to, from)

#define scanf(format, ...) (cqual_each(cqual_fill_each, 0, ## __VA_ARGS__), scanf(format))
#define fscanf(file, format, ...) (cqual_each(cqual_fill_each, 0, ## __VA_ARGS__), fscanf(file, format))
#define sscanf(s, format, ...) (cqual_each(cqual_read_each, s, ## __VA_ARGS__), sscanf(s, format))
#define wscanf(format, ...) (cqual_each(cqual_fill_each, 0, ## __VA_ARGS__), wscanf(format))
#define fwscanf(file, format, ...) (cqual_each(cqual_fill_each, 0, ## __VA_ARGS__), fwscanf(file, format))
#define swscanf(s, format, ...) (cqual_each(cqual_read_each, s, ## __VA_ARGS__), swscanf(s, format))
