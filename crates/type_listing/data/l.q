partial order {
  $untainted [level = value, sign = neg]
  $tainted [level = value, sign = pos]
  $untainted < $tainted
}
