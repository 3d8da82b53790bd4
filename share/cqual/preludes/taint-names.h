/* More of the C library for the lattice `taint.q`: sinks of formats and flows whose names many programs take for functions of
   their own. A prelude is one file, so put this one behind `taint.h` where a program has them from the C library:

       cat taint.h taint-names.h > my.h

   or name both to `cqual-cc`, which does the same. */

typedef struct _IO_FILE FILE;

int dprintf(int fd, $untainted const char *format, ...);
int vdprintf(int fd, $untainted const char *format, __builtin_va_list arg);
$tainted int getw(FILE *stream);
void err(int status, $untainted const char *format, ...);
void errx(int status, $untainted const char *format, ...);
void warn($untainted const char *format, ...);
void warnx($untainted const char *format, ...);
void verr(int status, $untainted const char *format, __builtin_va_list);
void verrx(int status, $untainted const char *format, __builtin_va_list);
void vwarn($untainted const char *format, __builtin_va_list);
void vwarnx($untainted const char *format, __builtin_va_list);
void error(int status, int errnum, $untainted const char *format, ...);
void error_at_line(int status, int errnum, const char *fname, unsigned int lineno, $untainted const char *format, ...);
$_1 char *basename(const $_1 char *filename);
$_1_2 char *gettext(const $_1 char *msgid);
$_1_2 char *dgettext(const char *domainname, const $_1 char *msgid);
$_1_2 char *ngettext(const $_1 char *msgid1, const $_1 char *msgid2, unsigned long n);
