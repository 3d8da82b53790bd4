/* Pointers of the kernel and of user programs, with the word where the kernel has `__user`: before the `*`, at the place pointed to.

   Map `__user` to `$user` (`models/kernel-user.h` does so), and the declarations of the kernel say the rest. `deref = yes` says that each
   place that a pointer leads to has to be at or below `$kernel` where the pointer is followed; `&p->member` counts as that, but not by
   `kernel-ref-access.q`. For sources in which the word stands behind the `*`, at the pointer itself, there is `kernel.q`. */
partial order {
  $kernel [level = ref, sign = neg, deref = yes]
  $user [level = ref, sign = pos]

  $kernel < $user
}
