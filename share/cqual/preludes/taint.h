/* Tainted data in programs over the C library: a prelude for the lattice `taint.q`.

   What comes from outside is `$tainted`: the environment, files, sockets, the arguments of `main`. What must not be reached by
   it is `$untainted`: formats, and what names programs and libraries that are run. Words such as `$_1_2` say what a function copies:
   what is marked with a set of numbers flows into each other place of the declaration whose set contains that one.

   Each `$untainted` is a bound of its own, so that two functions never share an error.

   Each signature has the shape that the headers of Debian 12 (glibc 2.36) give it after preprocessing, so that a program's own
   declarations, by its headers, are equated with it node by node. Functions that programs often define themselves stand in
   `taint-names.h`, functions of other libraries in `taint-libraries.h`, names of files that are opened or changed in `taint-files.h`,
   and arguments of programs that are run in `taint-arguments.h`.

   No word here stands below a struct: the struct of a prelude and that of a source are two, whatever they are called, and a word at the
   member of the one says nothing of the other. Sources that answer structs (`readdir`, `gethostbyname`, `getpwnam`, ..) are in the first
   of the models that `cqual-cc` uses with this prelude; what the scanf family reads is in the second. Without them none of that is found.

   models: taint-members.h taint-scan.h
*/

typedef unsigned long size_t;
typedef long ssize_t;
typedef long off_t;
typedef int wchar_t;
typedef unsigned int wint_t;
typedef struct _IO_FILE FILE;
typedef unsigned int socklen_t;
typedef int pid_t;
typedef struct { int cqual_fields; } posix_spawn_file_actions_t;
typedef struct { int cqual_fields; } posix_spawnattr_t;
typedef struct { int cqual_fields; } wordexp_t;
typedef struct { int cqual_fields; } mbstate_t;
typedef void *iconv_t;
struct sockaddr;
struct tm;

/* Where tainted data comes from: the environment and the arguments */

int main(int argc, $tainted char **argv, $tainted char **envp);
extern $tainted char **environ;
extern $tainted char **__environ;
extern $tainted char *optarg;
$tainted char *getenv(const char *name);
$tainted char *secure_getenv(const char *name);

/* Files, and what is typed */

$tainted char *fgets($tainted char *s, int n, FILE *stream);
$tainted char *fgets_unlocked($tainted char *s, int n, FILE *stream);
$tainted int fgetc(FILE *stream);
$tainted int getc(FILE *stream);
$tainted int getchar(void);
$tainted int fgetc_unlocked(FILE *stream);
$tainted int getc_unlocked(FILE *stream);
$tainted int getchar_unlocked(void);
size_t fread($tainted void *ptr, size_t size, size_t n, FILE *stream);
size_t fread_unlocked($tainted void *ptr, size_t size, size_t n, FILE *stream);
ssize_t getline($tainted char **lineptr, size_t *n, FILE *stream);
ssize_t getdelim($tainted char **lineptr, size_t *n, int delimiter, FILE *stream);
ssize_t read(int fd, $tainted void *buf, size_t nbytes);
ssize_t pread(int fd, $tainted void *buf, size_t nbytes, off_t offset);
ssize_t pread64(int fd, $tainted void *buf, size_t nbytes, off_t offset);
ssize_t readlink(const char *path, $tainted char *buf, size_t len);
ssize_t readlinkat(int fd, const char *path, $tainted char *buf, size_t len);
$tainted char *getpass(const char *prompt);
$tainted char *gets($tainted char *s);
$tainted wchar_t *fgetws($tainted wchar_t *ws, int n, FILE *stream);
$tainted wint_t fgetwc(FILE *stream);
$tainted wint_t getwc(FILE *stream);
$tainted wint_t getwchar(void);

/* Names that the system gives, and what is kept with a file */

$tainted char *getcwd($tainted char *buf, size_t size);
$tainted char *getwd($tainted char *buf);
$tainted char *get_current_dir_name(void);
$tainted char *getlogin(void);
int getlogin_r($tainted char *name, size_t name_len);
int gethostname($tainted char *name, size_t len);
int getdomainname($tainted char *name, size_t len);
int ttyname_r(int fd, $tainted char *buf, size_t buflen);
ssize_t getxattr(const char *path, const char *name, $tainted void *value, size_t size);
ssize_t lgetxattr(const char *path, const char *name, $tainted void *value, size_t size);
ssize_t fgetxattr(int fd, const char *name, $tainted void *value, size_t size);
ssize_t listxattr(const char *path, $tainted char *list, size_t size);
ssize_t llistxattr(const char *path, $tainted char *list, size_t size);
ssize_t flistxattr(int fd, $tainted char *list, size_t size);

/* Messages, sockets and what their other end is called. What is read into a struct by way of `void *` does not taint its members. */

ssize_t msgrcv(int msqid, $tainted void *msgp, size_t msgsz, long msgtyp, int msgflg);
ssize_t mq_receive(int mqdes, $tainted char *msg_ptr, size_t msg_len, unsigned int *msg_prio);

ssize_t recv(int fd, $tainted void *buf, size_t n, int flags);
ssize_t recvfrom(int fd, $tainted void *buf, size_t n, int flags, struct sockaddr *addr, socklen_t *addr_len);
int getnameinfo(const struct sockaddr *sa, socklen_t salen, $tainted char *host, socklen_t hostlen, $tainted char *serv,
    socklen_t servlen, int flags);

/* For models: what is given goes into the text */

void cqual_into($_1_2 void *to, $_1 ...);

/* Formats, and what is written by them. What the scanf family reads is in `models/taint-scan.h`: no word can say it here. */

int printf($untainted const char *format, ...);
int fprintf(FILE *stream, $untainted const char *format, ...);
int sprintf($_1_2 char *s, $untainted const char *format, $_1 ...);
int snprintf($_1_2 char *s, size_t maxlen, $untainted const char *format, $_1 ...);
int asprintf($_1_2 char **ptr, $untainted const char *format, $_1 ...);
int vprintf($untainted const char *format, __builtin_va_list arg);
int vfprintf(FILE *s, $untainted const char *format, __builtin_va_list arg);
int vsprintf($_1_2 char *s, $untainted const char *format, $_1 __builtin_va_list arg);
int vsnprintf($_1_2 char *s, size_t maxlen, $untainted const char *format, $_1 __builtin_va_list arg);
int vasprintf($_1_2 char **ptr, $untainted const char *format, $_1 __builtin_va_list arg);
int wprintf($untainted const wchar_t *format, ...);
int fwprintf(FILE *stream, $untainted const wchar_t *format, ...);
int swprintf($_1_2 wchar_t *s, size_t n, $untainted const wchar_t *format, $_1 ...);
int vwprintf($untainted const wchar_t *format, __builtin_va_list arg);
int vfwprintf(FILE *s, $untainted const wchar_t *format, __builtin_va_list arg);
int vswprintf($_1_2 wchar_t *s, size_t n, $untainted const wchar_t *format, $_1 __builtin_va_list arg);
int scanf($untainted const char *format, ...);
int fscanf(FILE *stream, $untainted const char *format, ...);
int sscanf(const char *s, $untainted const char *format, ...);
int vscanf($untainted const char *format, __builtin_va_list arg);
int vfscanf(FILE *s, $untainted const char *format, __builtin_va_list arg);
int vsscanf(const char *s, $untainted const char *format, __builtin_va_list arg);
void syslog(int pri, $untainted const char *fmt, ...);
void vsyslog(int pri, $untainted const char *fmt, __builtin_va_list ap);
size_t strftime($_1_2 char *s, size_t maxsize, const $_1 char *format, const struct tm *tp);

/* The same as headers with `_FORTIFY_SOURCE` name them */

int __printf_chk(int flag, $untainted const char *format, ...);
int __fprintf_chk(FILE *stream, int flag, $untainted const char *format, ...);
int __dprintf_chk(int fd, int flag, $untainted const char *format, ...);
int __sprintf_chk($_1_2 char *s, int flag, size_t slen, $untainted const char *format, $_1 ...);
int __snprintf_chk($_1_2 char *s, size_t n, int flag, size_t slen, $untainted const char *format, $_1 ...);
int __asprintf_chk($_1_2 char **ptr, int flag, $untainted const char *format, $_1 ...);
int __vprintf_chk(int flag, $untainted const char *format, __builtin_va_list ap);
int __vfprintf_chk(FILE *stream, int flag, $untainted const char *format, __builtin_va_list ap);
int __vsprintf_chk($_1_2 char *s, int flag, size_t slen, $untainted const char *format, $_1 __builtin_va_list ap);
int __vsnprintf_chk($_1_2 char *s, size_t n, int flag, size_t slen, $untainted const char *format, $_1 __builtin_va_list ap);
int __vasprintf_chk($_1_2 char **ptr, int flag, $untainted const char *format, $_1 __builtin_va_list ap);
int __wprintf_chk(int flag, $untainted const wchar_t *format, ...);
int __fwprintf_chk(FILE *stream, int flag, $untainted const wchar_t *format, ...);
int __swprintf_chk($_1_2 wchar_t *s, size_t n, int flag, size_t slen, $untainted const wchar_t *format, $_1 ...);
void __syslog_chk(int pri, int flag, $untainted const char *format, ...);
void __vsyslog_chk(int pri, int flag, $untainted const char *format, __builtin_va_list ap);

/* What runs programs and loads libraries; what names the environment that they get. In `putenv` the value stands behind the name. */

int system($untainted const char *command);
FILE *popen($untainted const char *command, const char *modes);
int execl($untainted const char *path, const char *arg, ...);
int execlp($untainted const char *file, const char *arg, ...);
int execle($untainted const char *path, const char *arg, ...);
int execv($untainted const char *path, char *const argv[]);
int execvp($untainted const char *file, char *const argv[]);
int execvpe($untainted const char *file, char *const argv[], char *const envp[]);
int execve($untainted const char *path, char *const argv[], char *const envp[]);
int execveat(int dirfd, $untainted const char *path, char *const argv[], char *const envp[], int flags);
int fexecve($untainted int fd, char *const argv[], char *const envp[]);
int posix_spawn(pid_t *pid, $untainted const char *path, const posix_spawn_file_actions_t *actions, const posix_spawnattr_t *attributes,
    char *const argv[], char *const envp[]);
int posix_spawnp(pid_t *pid, $untainted const char *file, const posix_spawn_file_actions_t *actions, const posix_spawnattr_t *attributes,
    char *const argv[], char *const envp[]);
int wordexp($untainted const char *words, wordexp_t *result, int flags);
int putenv($untainted char *string);
int setenv($untainted const char *name, const char *value, int replace);
void *dlsym(void *handle, $untainted const char *name);
void *dlvsym(void *handle, $untainted const char *name, const char *version);
void *dlopen($untainted const char *file, int mode);
void *dlmopen(long nsid, $untainted const char *file, int mode);

/* What copies memory and strings */

$_1_2 void *memcpy($_1_2 void *dest, const $_1 void *src, size_t n);
$_1_2 void *memmove($_1_2 void *dest, const $_1 void *src, size_t n);
$_1_2 void *mempcpy($_1_2 void *dest, const $_1 void *src, size_t n);
$_1_2 void *memccpy($_1_2 void *dest, const $_1 void *src, int c, size_t n);
$_1_2 void *memset($_1_2 void *s, $_1 int c, size_t n);
void bcopy(const $_1 void *src, $_1_2 void *dest, size_t n);
$_1_2 char *strcpy($_1_2 char *dest, const $_1 char *src);
$_1_2 char *strncpy($_1_2 char *dest, const $_1 char *src, size_t n);
$_1_2 char *stpcpy($_1_2 char *dest, const $_1 char *src);
$_1_2 char *stpncpy($_1_2 char *dest, const $_1 char *src, size_t n);
$_1_2 char *strcat($_1_2 char *dest, const $_1 char *src);
$_1_2 char *strncat($_1_2 char *dest, const $_1 char *src, size_t n);
size_t strxfrm($_1_2 char *dest, const $_1 char *src, size_t n);
$_1_2 wchar_t *wcscpy($_1_2 wchar_t *dest, const $_1 wchar_t *src);
$_1_2 wchar_t *wcsncpy($_1_2 wchar_t *dest, const $_1 wchar_t *src, size_t n);
$_1_2 wchar_t *wcscat($_1_2 wchar_t *dest, const $_1 wchar_t *src);
$_1_2 wchar_t *wcsncat($_1_2 wchar_t *dest, const $_1 wchar_t *src, size_t n);
$_1_2 wchar_t *wmemcpy($_1_2 wchar_t *dest, const $_1 wchar_t *src, size_t n);
$_1_2 wchar_t *wmemmove($_1_2 wchar_t *dest, const $_1 wchar_t *src, size_t n);
$_1_2 wchar_t *wmemset($_1_2 wchar_t *s, $_1 wchar_t c, size_t n);
size_t strlcpy($_1_2 char *dest, const $_1 char *src, size_t n);
size_t strlcat($_1_2 char *dest, const $_1 char *src, size_t n);
size_t mbsrtowcs($_1_2 wchar_t *dest, const $_1 char **src, size_t len, mbstate_t *state);
size_t wcsrtombs($_1_2 char *dest, const $_1 wchar_t **src, size_t len, mbstate_t *state);
size_t iconv(iconv_t cd, $_1 char **inbuf, size_t *inbytesleft, $_1_2 char **outbuf, size_t *outbytesleft);
$_1_2 const char *inet_ntop(int family, const $_1 void *address, $_1_2 char *text, socklen_t size);
size_t mbstowcs($_1_2 wchar_t *dest, const $_1 char *src, size_t n);
size_t wcstombs($_1_2 char *dest, const $_1 wchar_t *src, size_t n);

/* What allocates: the copy is as what was copied, and what `malloc` and `calloc` answer is fresh at each call, without a word */

$_1_2 char *strdup(const $_1 char *s);
$_1_2 char *strndup(const $_1 char *string, size_t n);
$_1_2 char *__strdup(const $_1 char *s);
$_1_2 char *__strndup(const $_1 char *string, size_t n);
$_1 void *realloc($_1 void *ptr, size_t size);
$_1 void *reallocarray($_1 void *ptr, size_t nmemb, size_t size);
$_1_2 char *realpath(const $_1 char *name, $_1_2 char *resolved);
$_1_2 char *canonicalize_file_name(const $_1 char *name);

/* What answers a part of its argument: one set at both, so that what is written there is written to the argument */

$_1 char *strchr(const $_1 char *s, int c);
$_1 char *strrchr(const $_1 char *s, int c);
$_1 char *strchrnul(const $_1 char *s, int c);
$_1 void *rawmemchr(const $_1 void *s, int c);
$_1 char *index(const $_1 char *s, int c);
$_1 char *rindex(const $_1 char *s, int c);
$_1 char *strpbrk(const $_1 char *s, const char *accept);
$_1 char *strstr(const $_1 char *haystack, const char *needle);
$_1 char *strcasestr(const $_1 char *haystack, const char *needle);
$_1 char *strtok($_1 char *s, const char *delim);
$_1 char *strtok_r($_1 char *s, const char *delim, $_1 char **save_ptr);
$_1 char *__strtok_r($_1 char *s, const char *delim, $_1 char **save_ptr);
$_1 char *strsep($_1 char **stringp, const char *delim);
$_1 void *memchr(const $_1 void *s, int c, size_t n);
$_1 void *memrchr(const $_1 void *s, int c, size_t n);
$_1 void *memmem(const $_1 void *haystack, size_t haystacklen, const void *needle, size_t needlelen);
$_1 char *dirname($_1 char *path);
$_1 char *__xpg_basename($_1 char *path);
$_1 wchar_t *wcschr(const $_1 wchar_t *wcs, wchar_t wc);
$_1 wchar_t *wcsrchr(const $_1 wchar_t *wcs, wchar_t wc);

/* What makes numbers of texts, and letters of letters */

$_1_2 int atoi(const $_1 char *nptr);
$_1_2 long atol(const $_1 char *nptr);
$_1_2 long long atoll(const $_1 char *nptr);
$_1_2 long strtol(const $_1 char *nptr, $_1 char **endptr, int base);
$_1_2 unsigned long strtoul(const $_1 char *nptr, $_1 char **endptr, int base);
$_1_2 long long strtoll(const $_1 char *nptr, $_1 char **endptr, int base);
$_1_2 unsigned long long strtoull(const $_1 char *nptr, $_1 char **endptr, int base);
$_1_2 double atof(const $_1 char *nptr);
$_1_2 double strtod(const $_1 char *nptr, $_1 char **endptr);
$_1_2 long double strtold(const $_1 char *nptr, $_1 char **endptr);
$_1_2 long strtoimax(const $_1 char *nptr, $_1 char **endptr, int base);
$_1_2 unsigned long strtoumax(const $_1 char *nptr, $_1 char **endptr, int base);
$_1_2 float strtof(const $_1 char *nptr, $_1 char **endptr);
$_1_2 int toupper($_1 int c);
$_1_2 int tolower($_1 int c);
