/* Tainted data: values that come from outside must not go where only trusted ones may.

   Write `$tainted` before the type of what comes from outside, and `$untainted` before the type of what must be
   trusted. An element with `sign = pos` is a lower limit: the value may be tainted, so whatever it flows into may be.
   One with `sign = neg` is an upper limit: nothing tainted may reach it. Whatever has neither is inferred. */
partial order {
  $untainted [level = value, sign = neg, color = "green"]
  $tainted [level = value, sign = pos, color = "red"]

  // What is trusted may go where tainted values may, and not the other way.
  $untainted < $tainted
}
