/* The `const` of C, inferred: which locations are `const`, by their declarations or by what flows, and must not be written to.

   Its elements stand at the level of references, that is of the locations that hold values, and not at that of the
   values. `write = yes` says that each location that is assigned to has to be at or below `$nonconst`; a location that
   is declared `const` is at or above `const`, so that an assignment to it is an error. */
partial order {
  $nonconst [level = ref, sign = neg, write = yes]
  const [level = ref, sign = pos]

  $nonconst < const
}
