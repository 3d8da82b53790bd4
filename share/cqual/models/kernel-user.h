/* The kernel's `__user` as the word `$user`, and what it reads and writes through macros, for `kernel-ref.q` or `kernel-ref-access.q` and
   `kernel-ref.h`.

   `cqual-cc --include kernel-user.h` includes it behind what the flags include, among that `compiler_types.h`, which defines `__user` as
   nothing. `get_user` and its kin are made of `typeof` and inline assembler there. That is read, but nothing of what goes through
   assembler is seen, and a memory operand, as x86 has it in `unsafe_get_user`, would count as following the pointer. So here they take a
   pointer of a user program and say nothing more: what was read is not looked at further. `linux/uaccess.h` is included for that before
   the source; macros that the source defines before its headers, such as `pr_fmt`, are then its own all the same. Outside of a kernel tree,
   where there is no `linux/uaccess.h`, the macros stand alone. */

#undef __user
#define __user $user

#if defined __KERNEL__ && defined __has_include
#if __has_include(<linux/uaccess.h>)
#include <linux/uaccess.h>
#endif
#endif

/* An exported function is cast to `void *`, and with it all that it is given and answers would be one. */
#undef ___ADDRESSABLE
#define ___ADDRESSABLE(symbol, attributes)

#undef get_user
#undef __get_user
#undef put_user
#undef __put_user
#undef unsafe_get_user
#undef unsafe_put_user

#define get_user(x, pointer) ({ cqual_user(pointer); (x) = 0; 0; })
#define __get_user(x, pointer) get_user(x, pointer)
#define put_user(x, pointer) ({ cqual_user(pointer); (void) (x); 0; })
#define __put_user(x, pointer) put_user(x, pointer)
#define unsafe_get_user(x, pointer, failed) ({ if (get_user(x, pointer)) goto failed; })
#define unsafe_put_user(x, pointer, failed) ({ if (put_user(x, pointer)) goto failed; })
