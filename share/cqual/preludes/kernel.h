/* Pointers of user programs in the Linux kernel: a prelude for the lattice `kernel.q`.

   Where a function takes a pointer that a user program gave, `$user` stands behind its `*`: such a pointer may be handed on, and
   only these functions follow it. Where it takes one that the kernel follows, `$kernel` stands there, so that a pointer of a user
   program is refused. The shapes are those of `include/linux/uaccess.h`, `string.h` and `fs.h` of Linux 6.1, where `__user`, which
   the kernel writes before the `*`, is nothing to a compiler. */

typedef unsigned long size_t;
typedef long ssize_t;
typedef long long loff_t;

/* What follows a pointer of a user program */

unsigned long copy_from_user(void *$kernel to, const void *$user from, unsigned long n);
unsigned long copy_to_user(void *$user to, const void *$kernel from, unsigned long n);
unsigned long _copy_from_user(void *$kernel to, const void *$user from, unsigned long n);
unsigned long _copy_to_user(void *$user to, const void *$kernel from, unsigned long n);
unsigned long __copy_from_user(void *$kernel to, const void *$user from, unsigned long n);
unsigned long __copy_to_user(void *$user to, const void *$kernel from, unsigned long n);
unsigned long __copy_from_user_inatomic(void *$kernel to, const void *$user from, unsigned long n);
unsigned long __copy_to_user_inatomic(void *$user to, const void *$kernel from, unsigned long n);
unsigned long raw_copy_from_user(void *$kernel to, const void *$user from, unsigned long n);
unsigned long raw_copy_to_user(void *$user to, const void *$kernel from, unsigned long n);
unsigned long copy_in_user(void *$user to, const void *$user from, unsigned long n);
long copy_from_user_nofault(void *$kernel dst, const void *$user src, size_t size);
long copy_to_user_nofault(void *$user dst, const void *$kernel src, size_t size);
int copy_struct_from_user(void *$kernel dst, size_t ksize, const void *$user src, size_t usize);
unsigned long clear_user(void *$user to, unsigned long n);
unsigned long __clear_user(void *$user to, unsigned long n);
long strncpy_from_user(char *$kernel dst, const char *$user src, long count);
long strncpy_from_user_nofault(char *$kernel dst, const void *$user unsafe_addr, long count);
long strnlen_user(const char *$user str, long n);
int check_zeroed_user(const void *$user from, size_t size);
char *strndup_user(const char *$user s, long n);
void *memdup_user(const void *$user src, size_t len);
void *vmemdup_user(const void *$user src, size_t len);
void *memdup_user_nul(const void *$user src, size_t len);
ssize_t simple_read_from_buffer(void *$user to, size_t count, loff_t *$kernel ppos, const void *$kernel from, size_t available);
ssize_t simple_write_to_buffer(void *$kernel to, size_t available, loff_t *$kernel ppos, const void *$user from, size_t count);

/* What the kernel follows itself */

void *memcpy(void *$kernel dest, const void *$kernel src, size_t n);
void *memmove(void *$kernel dest, const void *$kernel src, size_t n);
void *memset(void *$kernel s, int c, size_t n);
int memcmp(const void *$kernel a, const void *$kernel b, size_t n);
char *strcpy(char *$kernel dest, const char *$kernel src);
char *strncpy(char *$kernel dest, const char *$kernel src, size_t n);
size_t strlcpy(char *$kernel dest, const char *$kernel src, size_t n);
ssize_t strscpy(char *$kernel dest, const char *$kernel src, size_t n);
char *strcat(char *$kernel dest, const char *$kernel src);
int strcmp(const char *$kernel a, const char *$kernel b);
int strncmp(const char *$kernel a, const char *$kernel b, size_t n);
size_t strlen(const char *$kernel s);
void kfree(const void *$kernel object);

/* The same as the compiler's builtins, into which headers with fortification turn them */

void *__builtin_memcpy(void *$kernel dest, const void *$kernel src, size_t n);
void *__builtin_memmove(void *$kernel dest, const void *$kernel src, size_t n);
void *__builtin_memset(void *$kernel s, int c, size_t n);
int __builtin_memcmp(const void *$kernel a, const void *$kernel b, size_t n);
char *__builtin_strcpy(char *$kernel dest, const char *$kernel src);
char *__builtin_strncpy(char *$kernel dest, const char *$kernel src, size_t n);
char *__builtin_strcat(char *$kernel dest, const char *$kernel src);
size_t __builtin_strlen(const char *$kernel s);
