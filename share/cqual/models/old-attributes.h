/* Attributes of C23, `[[..]]`, which cqual does not read: where this is included first, headers that ask for them by
   `__has_c_attribute`, as those of gnulib do, write `__attribute__` in their place. cqual-cc and cqual-run include it. A compiler
   warns of no line of a system header, so it is one. */
#pragma GCC system_header
#undef __has_c_attribute
