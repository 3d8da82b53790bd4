/* The C library's functions that write to what they are given: a prelude for the lattice `const.q`.

   A parameter that the library's headers declare `const` needs no word here: the headers say it. A parameter that they do not is
   written to by these functions, which no header says: `$nonconst` says that nothing `const` may stand there. A function that
   answers a part of a `const` text, as `strchr` does, answers a place that may be written to: the headers lose the `const`, and
   so does this prelude, since index words speak of lattices of values alone. `const-parts.h` says what can be said of them.

   A string literal has no `const` in C (its type is an array of `char`), so a write to one is no error here.

   Each signature has the shape that the headers of Debian 12 (glibc 2.36) give it after preprocessing. */

typedef unsigned long size_t;
typedef long ssize_t;
typedef long off_t;
typedef long time_t;
typedef int wchar_t;
typedef int pid_t;
typedef unsigned int socklen_t;
typedef struct _IO_FILE FILE;
typedef struct { unsigned long __val[16]; } __sigset_t;
struct sockaddr;
struct stat;
struct tm;
struct timespec;
struct pollfd;

/* Memory and strings */

void *memcpy($nonconst void *dest, const void *src, size_t n);
void *memmove($nonconst void *dest, const void *src, size_t n);
void *mempcpy($nonconst void *dest, const void *src, size_t n);
void *memccpy($nonconst void *dest, const void *src, int c, size_t n);
void *memset($nonconst void *s, int c, size_t n);
void bcopy(const void *src, $nonconst void *dest, size_t n);
void bzero($nonconst void *s, size_t n);
void explicit_bzero($nonconst void *s, size_t n);
void swab(const void *from, $nonconst void *to, ssize_t n);
char *strcpy($nonconst char *dest, const char *src);
char *strncpy($nonconst char *dest, const char *src, size_t n);
char *stpcpy($nonconst char *dest, const char *src);
char *stpncpy($nonconst char *dest, const char *src, size_t n);
char *strcat($nonconst char *dest, const char *src);
char *strncat($nonconst char *dest, const char *src, size_t n);
size_t strxfrm($nonconst char *dest, const char *src, size_t n);
char *strtok($nonconst char *s, const char *delim);
char *strtok_r($nonconst char *s, const char *delim, char *$nonconst *save_ptr);
char *strsep($nonconst char *$nonconst *stringp, const char *delim);
wchar_t *wcscpy($nonconst wchar_t *dest, const wchar_t *src);
wchar_t *wcscat($nonconst wchar_t *dest, const wchar_t *src);
wchar_t *wcsncpy($nonconst wchar_t *dest, const wchar_t *src, size_t n);
wchar_t *wcsncat($nonconst wchar_t *dest, const wchar_t *src, size_t n);
wchar_t *wmemcpy($nonconst wchar_t *dest, const wchar_t *src, size_t n);
wchar_t *wmemmove($nonconst wchar_t *dest, const wchar_t *src, size_t n);
wchar_t *wmemset($nonconst wchar_t *s, wchar_t c, size_t n);
char *dirname($nonconst char *path);
size_t mbstowcs($nonconst wchar_t *dest, const char *src, size_t n);
size_t wcstombs($nonconst char *dest, const wchar_t *src, size_t n);

/* Formats and scans */

int sprintf($nonconst char *s, const char *format, ...);
int snprintf($nonconst char *s, size_t maxlen, const char *format, ...);
int vsprintf($nonconst char *s, const char *format, __builtin_va_list arg);
int vsnprintf($nonconst char *s, size_t maxlen, const char *format, __builtin_va_list arg);
int asprintf(char *$nonconst *ptr, const char *format, ...);
int vasprintf(char *$nonconst *ptr, const char *format, __builtin_va_list arg);
int scanf(const char *format, $nonconst ...);
int fscanf(FILE *stream, const char *format, $nonconst ...);
int sscanf(const char *s, const char *format, $nonconst ...);
/* (A list of arguments is a pointer here: a word before `__builtin_va_list` would stand at the list and not at what it leads to.) */
int vscanf(const char *format, $nonconst void *arg);
int vfscanf(FILE *s, const char *format, $nonconst void *arg);
int vsscanf(const char *s, const char *format, $nonconst void *arg);
size_t strftime($nonconst char *s, size_t maxsize, const char *format, const struct tm *tp);

/* For models: what is given goes into the text (that it is written to is said by the function that does so) */

void cqual_into(void *to, ...);

/* Files and sockets */

int poll($nonconst struct pollfd *fds, unsigned long nfds, int timeout);
wchar_t *fgetws($nonconst wchar_t *ws, int n, FILE *stream);
char *fgets($nonconst char *s, int n, FILE *stream);
size_t fread($nonconst void *ptr, size_t size, size_t n, FILE *stream);
ssize_t getline(char *$nonconst *lineptr, $nonconst size_t *n, FILE *stream);
ssize_t getdelim(char *$nonconst *lineptr, $nonconst size_t *n, int delimiter, FILE *stream);
ssize_t read(int fd, $nonconst void *buf, size_t nbytes);
ssize_t pread(int fd, $nonconst void *buf, size_t nbytes, off_t offset);
ssize_t recv(int fd, $nonconst void *buf, size_t n, int flags);
ssize_t recvfrom(int fd, $nonconst void *buf, size_t n, int flags, struct sockaddr *addr, $nonconst socklen_t *addr_len);
ssize_t readlink(const char *path, $nonconst char *buf, size_t len);
ssize_t readlinkat(int fd, const char *path, $nonconst char *buf, size_t len);
char *getcwd($nonconst char *buf, size_t size);
char *realpath(const char *name, $nonconst char *resolved);
int gethostname($nonconst char *name, size_t len);
int stat(const char *file, $nonconst struct stat *buf);
int lstat(const char *file, $nonconst struct stat *buf);
int fstat(int fd, $nonconst struct stat *buf);
int pipe($nonconst int pipedes[2]);
int mkstemp($nonconst char *template);
char *mkdtemp($nonconst char *template);
char *mktemp($nonconst char *template);

/* Numbers, times, processes, sorting */

long strtol(const char *nptr, char *$nonconst *endptr, int base);
unsigned long strtoul(const char *nptr, char *$nonconst *endptr, int base);
long long strtoll(const char *nptr, char *$nonconst *endptr, int base);
unsigned long long strtoull(const char *nptr, char *$nonconst *endptr, int base);
long strtoimax(const char *nptr, char *$nonconst *endptr, int base);
unsigned long strtoumax(const char *nptr, char *$nonconst *endptr, int base);
double strtod(const char *nptr, char *$nonconst *endptr);
double frexp(double x, $nonconst int *exponent);
double modf(double x, $nonconst double *iptr);
time_t time($nonconst time_t *timer);
time_t mktime($nonconst struct tm *tp);
struct tm *localtime_r(const time_t *timer, $nonconst struct tm *tp);
struct tm *gmtime_r(const time_t *timer, $nonconst struct tm *tp);
char *ctime_r(const time_t *timer, $nonconst char *buf);
int clock_gettime(int clock_id, $nonconst struct timespec *tp);
int nanosleep(const struct timespec *requested, $nonconst struct timespec *remaining);
pid_t waitpid(pid_t pid, $nonconst int *stat_loc, int options);
int sigemptyset($nonconst __sigset_t *set);
int sigfillset($nonconst __sigset_t *set);
int sigaddset($nonconst __sigset_t *set, int signo);
int sigdelset($nonconst __sigset_t *set, int signo);
void qsort($nonconst void *base, size_t nmemb, size_t size, int (*compar)(const void *, const void *));
