/* Tainted data, as in taint.q, where a word on a struct reaches what is in it.

   `fieldflow = down`: each field of a struct is at or above the struct, so that `$tainted struct request *r` taints
   `r->length` without a word at each field. `ptrflow = down`: what a pointer points to is at or above the pointer, so
   that it taints the characters of `r->name`, too, and what `r->next` points to.

   Take it where structs come from outside as a whole: requests, headers, records of a file. All objects of a struct have
   one variable for each field, so one that is tainted taints the fields of all others of its type; and what is reached
   by way of a tainted pointer is tainted, though only the pointer may be chosen from outside. taint.q has neither. */
partial order [fieldflow = down, ptrflow = down] {
  $untainted [level = value, sign = neg, color = "green"]
  $tainted [level = value, sign = pos, color = "red"]

  // What is trusted may go where tainted values may, and not the other way.
  $untainted < $tainted
}
