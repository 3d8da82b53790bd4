/* Arguments of programs that are run, as sinks for the lattice `taint.q`: put it behind `taint.h`, as
   `cqual-cc --prelude taint.h --prelude taint-arguments.h`.

   A command behind `-c` of a shell is one of them, as in `execl("/bin/sh", "sh", "-c", command, (char *) 0)`. A lattice says what may
   flow where, and not which text stands before another one, so here no argument of any program may come from outside. Of `execle` only
   the first is looked at, since the environment stands in its `...`. */

typedef int pid_t;
typedef struct { int cqual_fields; } posix_spawn_file_actions_t;
typedef struct { int cqual_fields; } posix_spawnattr_t;

int execl(const char *path, $untainted const char *arg, $untainted ...);
int execlp(const char *file, $untainted const char *arg, $untainted ...);
int execle(const char *path, $untainted const char *arg, ...);
int execv(const char *path, $untainted char *const argv[]);
int execvp(const char *file, $untainted char *const argv[]);
int execvpe(const char *file, $untainted char *const argv[], char *const envp[]);
int execve(const char *path, $untainted char *const argv[], char *const envp[]);
int execveat(int dirfd, const char *path, $untainted char *const argv[], char *const envp[], int flags);
int fexecve(int fd, $untainted char *const argv[], char *const envp[]);
int posix_spawn(pid_t *pid, const char *path, const posix_spawn_file_actions_t *actions, const posix_spawnattr_t *attributes,
    $untainted char *const argv[], char *const envp[]);
int posix_spawnp(pid_t *pid, const char *file, const posix_spawn_file_actions_t *actions, const posix_spawnattr_t *attributes,
    $untainted char *const argv[], char *const envp[]);
