/* Pointers of user programs in the Linux kernel, with the word before the `*`: a prelude for the lattices `kernel-ref.q` and
   `kernel-ref-access.q`.

   What a function takes from a user program is `$user`, as the kernel's `__user` says it; what the kernel follows is `$kernel`. The shapes
   are those of `include/linux/uaccess.h`, `string.h` and `fs.h` of Linux 6.1. `get_user` and `put_user` are macros: `models/kernel-user.h`
   has them, over `cqual_user` here. */

typedef unsigned long size_t;
typedef long ssize_t;
typedef long long loff_t;

/* What follows a pointer of a user program */

unsigned long copy_from_user($kernel void *to, const $user void *from, unsigned long n);
unsigned long copy_to_user($user void *to, const $kernel void *from, unsigned long n);
unsigned long _copy_from_user($kernel void *to, const $user void *from, unsigned long n);
unsigned long _copy_to_user($user void *to, const $kernel void *from, unsigned long n);
unsigned long __copy_from_user($kernel void *to, const $user void *from, unsigned long n);
unsigned long __copy_to_user($user void *to, const $kernel void *from, unsigned long n);
unsigned long __copy_from_user_inatomic($kernel void *to, const $user void *from, unsigned long n);
unsigned long __copy_to_user_inatomic($user void *to, const $kernel void *from, unsigned long n);
unsigned long raw_copy_from_user($kernel void *to, const $user void *from, unsigned long n);
unsigned long raw_copy_to_user($user void *to, const $kernel void *from, unsigned long n);
unsigned long copy_in_user($user void *to, const $user void *from, unsigned long n);
long copy_from_user_nofault($kernel void *dst, const $user void *src, size_t size);
long copy_to_user_nofault($user void *dst, const $kernel void *src, size_t size);
int copy_struct_from_user($kernel void *dst, size_t ksize, const $user void *src, size_t usize);
unsigned long clear_user($user void *to, unsigned long n);
unsigned long __clear_user($user void *to, unsigned long n);
long strncpy_from_user($kernel char *dst, const $user char *src, long count);
long strncpy_from_user_nofault($kernel char *dst, const $user void *unsafe_addr, long count);
long strnlen_user(const $user char *str, long n);
int check_zeroed_user(const $user void *from, size_t size);
char *strndup_user(const $user char *s, long n);
void *memdup_user(const $user void *src, size_t len);
void *vmemdup_user(const $user void *src, size_t len);
void *memdup_user_nul(const $user void *src, size_t len);
ssize_t simple_read_from_buffer($user void *to, size_t count, $kernel loff_t *ppos, const $kernel void *from, size_t available);
ssize_t simple_write_to_buffer($kernel void *to, size_t available, $kernel loff_t *ppos, const $user void *from, size_t count);

/* For the models: any pointer of a user program */

void cqual_user(const $user void *pointer);

/* What the kernel follows itself */

void *memcpy($kernel void *dest, const $kernel void *src, size_t n);
void *memmove($kernel void *dest, const $kernel void *src, size_t n);
void *memset($kernel void *s, int c, size_t n);
int memcmp(const $kernel void *a, const $kernel void *b, size_t n);
char *strcpy($kernel char *dest, const $kernel char *src);
char *strncpy($kernel char *dest, const $kernel char *src, size_t n);
size_t strlcpy($kernel char *dest, const $kernel char *src, size_t n);
ssize_t strscpy($kernel char *dest, const $kernel char *src, size_t n);
char *strcat($kernel char *dest, const $kernel char *src);
int strcmp(const $kernel char *a, const $kernel char *b);
int strncmp(const $kernel char *a, const $kernel char *b, size_t n);
size_t strlen(const $kernel char *s);
void kfree(const $kernel void *object);

/* The same as the compiler's builtins, into which headers with fortification turn them */

void *__builtin_memcpy($kernel void *dest, const $kernel void *src, size_t n);
void *__builtin_memmove($kernel void *dest, const $kernel void *src, size_t n);
void *__builtin_memset($kernel void *s, int c, size_t n);
int __builtin_memcmp(const $kernel void *a, const $kernel void *b, size_t n);
char *__builtin_strcpy($kernel char *dest, const $kernel char *src);
char *__builtin_strncpy($kernel char *dest, const $kernel char *src, size_t n);
char *__builtin_strcat($kernel char *dest, const $kernel char *src);
size_t __builtin_strlen(const $kernel char *s);
