/* Names of files that a program opens, makes, changes or removes, as sinks for the lattice `taint.q`: whether a name from outside is
   wrong there depends on the program (a server is, `cat` is not), so the file is apart. Put it behind `taint.h`:
   `cqual-cc --prelude taint.h --prelude taint-files.h`. What only asks about a file (`stat`, `access`, `readlink`) is not in it. */

typedef struct _IO_FILE FILE;
typedef struct __dirstream DIR;
typedef unsigned int mode_t;
typedef unsigned int uid_t;
typedef unsigned int gid_t;
typedef unsigned long dev_t;
typedef long off_t;

int open($untainted const char *file, int oflag, ...);
int open64($untainted const char *file, int oflag, ...);
int openat(int fd, $untainted const char *file, int oflag, ...);
int openat64(int fd, $untainted const char *file, int oflag, ...);
int creat($untainted const char *file, mode_t mode);
FILE *fopen($untainted const char *filename, const char *modes);
FILE *fopen64($untainted const char *filename, const char *modes);
FILE *freopen($untainted const char *filename, const char *modes, FILE *stream);
DIR *opendir($untainted const char *name);
int unlink($untainted const char *name);
int unlinkat(int fd, $untainted const char *name, int flag);
int remove($untainted const char *filename);
int rename($untainted const char *old, $untainted const char *new_name);
int renameat(int oldfd, $untainted const char *old, int newfd, $untainted const char *new_name);
int link($untainted const char *from, $untainted const char *to);
int symlink($untainted const char *from, $untainted const char *to);
int truncate($untainted const char *file, off_t length);
int mkdir($untainted const char *path, mode_t mode);
int mkdirat(int fd, $untainted const char *path, mode_t mode);
int rmdir($untainted const char *path);
int mknod($untainted const char *path, mode_t mode, dev_t dev);
int mkfifo($untainted const char *path, mode_t mode);
int chmod($untainted const char *file, mode_t mode);
int fchmodat(int fd, $untainted const char *file, mode_t mode, int flag);
int chown($untainted const char *file, uid_t owner, gid_t group);
int lchown($untainted const char *file, uid_t owner, gid_t group);
int fchownat(int fd, $untainted const char *file, uid_t owner, gid_t group, int flag);
int chdir($untainted const char *path);
int chroot($untainted const char *path);
int mount($untainted const char *special_file, $untainted const char *dir, const char *fstype, unsigned long rwflag, const void *data);
int umount($untainted const char *special_file);
int umount2($untainted const char *special_file, int flags);
