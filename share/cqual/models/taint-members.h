/* Sources that answer structs, for the lattice `taint.q`: names of files, hosts and users, messages.

   A struct of a prelude and the struct of the same name in a source are two, so no word of a prelude reaches the member of a variable
   (`struct dirent *e = readdir(d); .. e->d_name`). Here a call stands beside each call of these functions that taints what the members
   hold, in the struct of the source. Since each struct has one variable for each member, all objects of it are tainted then.

   `cqual-cc` puts this model over the calls of the source whenever the prelude is `taint.h`. Without `cqual-cc` include it before the
   source (`gcc -E -include taint-members.h ..`, with `-D_GNU_SOURCE` where the source defines that). It is made for cqual alone. */

#ifndef __CQUAL_CALLS__
#include <dirent.h>
#include <fts.h>
#include <glob.h>
#include <grp.h>
#include <ifaddrs.h>
#include <mntent.h>
#include <netdb.h>
#include <pwd.h>
#include <shadow.h>
#include <sys/socket.h>
#include <sys/uio.h>
#include <sys/utsname.h>
#include <time.h>
#include <utmp.h>
#include <utmpx.h>
#include <arpa/inet.h>
#endif

extern void cqual_fill($tainted void *text);

#define cqual_filled(type, call, member) \
    ({ type *cqual_it = call; cqual_fill(cqual_it->member); cqual_it; })
#define cqual_host(call) \
    ({ struct hostent *cqual_it = call; cqual_fill(cqual_it->h_name); cqual_fill(cqual_it->h_aliases[0]); cqual_it; })
#define cqual_user(call) ({ struct passwd *cqual_it = call; cqual_fill_user(cqual_it); cqual_it; })
#define cqual_fill_user(it) \
    (cqual_fill((it)->pw_name), cqual_fill((it)->pw_passwd), cqual_fill((it)->pw_gecos), cqual_fill((it)->pw_dir), \
     cqual_fill((it)->pw_shell))
#define cqual_group(call) \
    ({ struct group *cqual_it = call; cqual_fill(cqual_it->gr_name); cqual_fill(cqual_it->gr_mem[0]); cqual_it; })
#define cqual_login(type, call) \
    ({ type *cqual_it = call; cqual_fill(cqual_it->ut_user); cqual_fill(cqual_it->ut_host); cqual_fill(cqual_it->ut_line); cqual_it; })

/* Names of files */

#define readdir(dir) cqual_filled(struct dirent, readdir(dir), d_name)
#define readdir64(dir) cqual_filled(struct dirent64, readdir64(dir), d_name)
#define scandir(dir, list, filter, compare) \
    ({ int cqual_n = scandir(dir, list, filter, compare); cqual_fill((*(list))[0]->d_name); cqual_n; })
#define glob(pattern, flags, failed, found) \
    ({ int cqual_n = glob(pattern, flags, failed, found); cqual_fill((found)->gl_pathv[0]); cqual_n; })
#define fts_read(tree) \
    ({ FTSENT *cqual_it = fts_read(tree); cqual_fill(cqual_it->fts_name); cqual_fill(cqual_it->fts_path); \
       cqual_fill(cqual_it->fts_accpath); cqual_it; })
#define getmntent(file) \
    ({ struct mntent *cqual_it = getmntent(file); cqual_fill(cqual_it->mnt_fsname); cqual_fill(cqual_it->mnt_dir); \
       cqual_fill(cqual_it->mnt_opts); cqual_it; })

/* Hosts, and what the other end of a socket sends */

#define gethostbyname(name) cqual_host(gethostbyname(name))
#define gethostbyname2(name, family) cqual_host(gethostbyname2(name, family))
#define gethostbyaddr(address, length, family) cqual_host(gethostbyaddr(address, length, family))
#define gethostent() cqual_host(gethostent())
#define getservbyname(name, protocol) cqual_filled(struct servent, getservbyname(name, protocol), s_name)
#define getservbyport(port, protocol) cqual_filled(struct servent, getservbyport(port, protocol), s_name)
#define getaddrinfo(node, service, hints, found) \
    ({ int cqual_n = getaddrinfo(node, service, hints, found); cqual_fill((*(found))->ai_canonname); cqual_n; })
#define getifaddrs(found) ({ int cqual_n = getifaddrs(found); cqual_fill((*(found))->ifa_name); cqual_n; })
#define uname(name) ({ int cqual_n = uname(name); cqual_fill((name)->nodename); cqual_n; })
#define readv(fd, parts, count) ({ long cqual_n = readv(fd, parts, count); cqual_fill((parts)->iov_base); cqual_n; })
#define preadv(fd, parts, count, offset) \
    ({ long cqual_n = preadv(fd, parts, count, offset); cqual_fill((parts)->iov_base); cqual_n; })
#define recvmsg(fd, message, flags) \
    ({ long cqual_n = recvmsg(fd, message, flags); cqual_fill((message)->msg_iov->iov_base); cqual_n; })
#define inet_ntoa(address) ({ char *cqual_it = inet_ntoa(address); cqual_into(cqual_it, (address).s_addr); cqual_it; })

/* Users */

#define getpwnam(name) cqual_user(getpwnam(name))
#define getpwuid(uid) cqual_user(getpwuid(uid))
#define getpwent() cqual_user(getpwent())
#define fgetpwent(file) cqual_user(fgetpwent(file))
#define getpwnam_r(name, entry, text, length, found) \
    ({ int cqual_n = getpwnam_r(name, entry, text, length, found); cqual_fill_user(entry); cqual_n; })
#define getpwuid_r(uid, entry, text, length, found) \
    ({ int cqual_n = getpwuid_r(uid, entry, text, length, found); cqual_fill_user(entry); cqual_n; })
#define getgrnam(name) cqual_group(getgrnam(name))
#define getgrgid(gid) cqual_group(getgrgid(gid))
#define getgrent() cqual_group(getgrent())
#define getspnam(name) \
    ({ struct spwd *cqual_it = getspnam(name); cqual_fill(cqual_it->sp_namp); cqual_fill(cqual_it->sp_pwdp); cqual_it; })
#define getutent() cqual_login(struct utmp, getutent())
#define getutxent() cqual_login(struct utmpx, getutxent())

/* Times: the name of the zone, which the environment may say. Its member is named by what the headers were asked for. */

#if defined CQUAL_SEEN_tm_zone || !defined __CQUAL_CALLS__
#define localtime(time) cqual_filled(struct tm, localtime(time), tm_zone)
#define gmtime(time) cqual_filled(struct tm, gmtime(time), tm_zone)
#define localtime_r(time, into) cqual_filled(struct tm, localtime_r(time, into), tm_zone)
#else
#define localtime(time) cqual_filled(struct tm, localtime(time), __tm_zone)
#define gmtime(time) cqual_filled(struct tm, gmtime(time), __tm_zone)
#define localtime_r(time, into) cqual_filled(struct tm, localtime_r(time, into), __tm_zone)
#endif
