/* Functions that write what stands in the place of `...` into a text, for `taint.q` and `const.q`.

   Arguments in the place of one `...` are as one: in `snprintf(s, n, "%s %s", a, b)` what `a` points to and what `b` points to become
   the same, and so one taints the other. Here each argument goes into the target by itself, through a function `cqual_into` that the
   preludes `taint.h` and `const.h` declare: `s` is tainted where one of them is, and they stay apart.

   `cqual-cc --model formats-into.h` puts this over the calls of the source. It takes up to 40 arguments, and is made for cqual alone. */

#ifndef __CQUAL_CALLS__
#include <stdio.h>
#include <wchar.h>
#endif
#include "each-argument.h"

#define sprintf(to, format, ...) (cqual_each(cqual_into, to, ## __VA_ARGS__), sprintf(to, format))
#define snprintf(to, size, format, ...) (cqual_each(cqual_into, to, ## __VA_ARGS__), snprintf(to, size, format))
#define asprintf(to, format, ...) (cqual_each(cqual_into, *(to), ## __VA_ARGS__), asprintf(to, format))
#define swprintf(to, size, format, ...) (cqual_each(cqual_into, to, ## __VA_ARGS__), swprintf(to, size, format))
