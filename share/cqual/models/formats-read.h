/* Functions that only read what stands in the place of `...`, for every lattice.

   Arguments in the place of one `...` are as one: in `printf("%s %s", a, b)` what `a` points to and what `b` points to become the same,
   so that one taints the other, or makes it `const`. These functions write nothing through them and pass nothing on. Here their
   further arguments stand beside the call, so that nothing is joined; each is looked at as before. The format stays an argument. What
   a `%n` writes is not seen.

   `cqual-cc --model formats-read.h` puts this over the calls of the source. It is made for cqual alone. */

#ifndef __CQUAL_CALLS__
#include <stdio.h>
#include <wchar.h>
#include <err.h>
#include <error.h>
#include <syslog.h>
#endif

#define printf(format, ...) (0, ## __VA_ARGS__, printf(format))
#define fprintf(to, format, ...) (0, ## __VA_ARGS__, fprintf(to, format))
#define dprintf(to, format, ...) (0, ## __VA_ARGS__, dprintf(to, format))
#define wprintf(format, ...) (0, ## __VA_ARGS__, wprintf(format))
#define fwprintf(to, format, ...) (0, ## __VA_ARGS__, fwprintf(to, format))
#define syslog(level, format, ...) (0, ## __VA_ARGS__, syslog(level, format))
#define err(status, format, ...) (0, ## __VA_ARGS__, err(status, format))
#define errx(status, format, ...) (0, ## __VA_ARGS__, errx(status, format))
#define warn(format, ...) (0, ## __VA_ARGS__, warn(format))
#define warnx(format, ...) (0, ## __VA_ARGS__, warnx(format))
#define error(status, number, format, ...) (0, ## __VA_ARGS__, error(status, number, format))
