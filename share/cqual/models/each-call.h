/* Gives each call of a sink a bound of its own, for the lattice `taint.q`: `cqual-cc --model each-call.h`. Without `cqual-cc` include
   this file before the source (`gcc -E -include each-call.h ..`, with `-D_GNU_SOURCE` where the source defines that).

   A bound that is exceeded makes one error with one path, whatever the number of bad calls: the `$untainted` of a signature is one
   bound for all calls of the function. Here the argument of each call goes through a variable that has the word too, so that each bad
   call has an error at its own line; the error at the signature stays. The source must not be run: it is made for cqual alone.

   The variables are named so that a message can say what they are. */

#ifndef __CQUAL_CALLS__
#include <stdio.h>
#include <stdlib.h>
#include <unistd.h>
#include <dlfcn.h>
#include <syslog.h>
#endif

#define printf(format, ...) ({ $untainted const char *cqual_format_of_printf = (format); printf(cqual_format_of_printf, ## __VA_ARGS__); })
#define fprintf(stream, format, ...) \
    ({ $untainted const char *cqual_format_of_fprintf = (format); fprintf(stream, cqual_format_of_fprintf, ## __VA_ARGS__); })
#define dprintf(fd, format, ...) \
    ({ $untainted const char *cqual_format_of_dprintf = (format); dprintf(fd, cqual_format_of_dprintf, ## __VA_ARGS__); })
#define sprintf(s, format, ...) \
    ({ $untainted const char *cqual_format_of_sprintf = (format); sprintf(s, cqual_format_of_sprintf, ## __VA_ARGS__); })
#define snprintf(s, n, format, ...) \
    ({ $untainted const char *cqual_format_of_snprintf = (format); snprintf(s, n, cqual_format_of_snprintf, ## __VA_ARGS__); })
#define syslog(level, format, ...) \
    ({ $untainted const char *cqual_format_of_syslog = (format); syslog(level, cqual_format_of_syslog, ## __VA_ARGS__); })
#define vprintf(format, list) ({ $untainted const char *cqual_format_of_vprintf = (format); vprintf(cqual_format_of_vprintf, list); })
#define vfprintf(stream, format, list) \
    ({ $untainted const char *cqual_format_of_vfprintf = (format); vfprintf(stream, cqual_format_of_vfprintf, list); })
#define vsprintf(s, format, list) \
    ({ $untainted const char *cqual_format_of_vsprintf = (format); vsprintf(s, cqual_format_of_vsprintf, list); })
#define vsnprintf(s, n, format, list) \
    ({ $untainted const char *cqual_format_of_vsnprintf = (format); vsnprintf(s, n, cqual_format_of_vsnprintf, list); })
#define vsyslog(level, format, list) \
    ({ $untainted const char *cqual_format_of_vsyslog = (format); vsyslog(level, cqual_format_of_vsyslog, list); })
#define system(command) ({ $untainted const char *cqual_command_of_system = (command); system(cqual_command_of_system); })
#define popen(command, modes) ({ $untainted const char *cqual_command_of_popen = (command); popen(cqual_command_of_popen, modes); })
#define execv(path, list) ({ $untainted const char *cqual_path_of_execv = (path); execv(cqual_path_of_execv, list); })
#define execvp(file, list) ({ $untainted const char *cqual_path_of_execvp = (file); execvp(cqual_path_of_execvp, list); })
#define execve(path, list, names) ({ $untainted const char *cqual_path_of_execve = (path); execve(cqual_path_of_execve, list, names); })
#define execl(path, ...) ({ $untainted const char *cqual_path_of_execl = (path); execl(cqual_path_of_execl, __VA_ARGS__); })
#define execlp(file, ...) ({ $untainted const char *cqual_path_of_execlp = (file); execlp(cqual_path_of_execlp, __VA_ARGS__); })
#define dlopen(file, mode) ({ $untainted const char *cqual_path_of_dlopen = (file); dlopen(cqual_path_of_dlopen, mode); })
