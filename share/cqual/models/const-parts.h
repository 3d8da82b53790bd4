/* Functions of the C library that answer a part of what they are given, for the lattice `const.q`: `cqual-cc --model const-parts.h`.
   Without `cqual-cc` include this file before the source (`gcc -E -include const-parts.h ..`, with `-D_GNU_SOURCE` where the source
   defines that).

   Their declarations in the library's headers take `const char *` and answer `char *`, so that a text loses its `const` on the way
   through them. Here each has a name of its own and a body, which says that what is answered is what was given. Each call has a copy
   of its own: what it answers may be written to exactly where what it was given may. The bodies say only that, and are not to be
   run. */

#ifndef __CQUAL_CALLS__
#include <string.h>
#include <strings.h>
#endif

static char *cqual_strchr(char *s, int c) { return s; }
static char *cqual_strrchr(char *s, int c) { return s; }
static char *cqual_strchrnul(char *s, int c) { return s; }
static char *cqual_index(char *s, int c) { return s; }
static char *cqual_rindex(char *s, int c) { return s; }
static char *cqual_strpbrk(char *s, const char *accept) { return s; }
static char *cqual_strstr(char *haystack, const char *needle) { return haystack; }
static char *cqual_strcasestr(char *haystack, const char *needle) { return haystack; }
static void *cqual_memchr(void *s, int c, unsigned long n) { return s; }
static void *cqual_memrchr(void *s, int c, unsigned long n) { return s; }

#define strchr(s, c) cqual_strchr(s, c)
#define strrchr(s, c) cqual_strrchr(s, c)
#define strchrnul(s, c) cqual_strchrnul(s, c)
#define index(s, c) cqual_index(s, c)
#define rindex(s, c) cqual_rindex(s, c)
#define strpbrk(s, accept) cqual_strpbrk(s, accept)
#define strstr(haystack, needle) cqual_strstr(haystack, needle)
#define strcasestr(haystack, needle) cqual_strcasestr(haystack, needle)
#define memchr(s, c, n) cqual_memchr(s, c, n)
#define memrchr(s, c, n) cqual_memrchr(s, c, n)
