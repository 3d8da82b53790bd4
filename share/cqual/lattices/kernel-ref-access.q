/* Pointers of the kernel and of user programs, as `kernel-ref.q`, for the kernel's own sources.

   `deref = access` in place of `deref = yes`: `&p->m` and `&p[1]` make an address and follow nothing, so that `get_user(n, &p->count)` is
   accepted. Where such an address is followed later, the error stands there. It is read with `--wide` alone, which `cqual-cc` and
   `cqual-run` say themselves. */
partial order {
  $kernel [level = ref, sign = neg, deref = access]
  $user [level = ref, sign = pos]

  $kernel < $user
}
