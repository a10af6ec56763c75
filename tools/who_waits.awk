# Who waits for what, where nobody can go on and where the trace ends: awk -f tools/who_waits.awk examples/circle.trace
$1 == "park" {
  waits[$2] = $3
  for (i = 4; i <= NF; i++) waits[$2] = waits[$2] " " $i
  number = substr($2, 2) + 0
  if (number > last) last = number
}
$1 == "block" && $2 == "none" { tell("line " NR ", nobody can go on:") }
$1 == "wake" || $1 == "late" || $1 == "throw" || $1 == "end" { delete waits[$2] }
$1 == "stop" { tell("at the end:") }
function tell(where,   i) {
  print where
  for (i = 0; i <= last; i++) if (("g" i) in waits) print "  g" i " " waits["g" i]
}
