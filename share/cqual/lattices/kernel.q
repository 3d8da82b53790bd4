/* Pointers of the kernel and of user programs: a pointer that a user program gave must not be followed as it is.

   Write `$user` behind the `*` of a pointer that comes from a user program, and `$kernel` where only a pointer of the
   kernel may stand. `deref = yes` says that each pointer that is followed has to be at or below `$kernel`, so such
   places need no word of their own. */
partial order {
  $kernel [level = value, sign = neg, deref = yes]
  $user [level = value, sign = pos]

  $kernel < $user
}
