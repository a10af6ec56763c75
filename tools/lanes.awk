# A trace with a column for each greenlet: awk -f tools/lanes.awk examples/hello.trace
$1 == "block" || $1 == "turn" || $1 == "stop" { print; next }
$1 == "link" || $1 == "job" { lane($3, $1 " " $2 rest(4)); next }
{ lane($2, $1 rest(3)) }
function rest(from,   text, i) {
  for (i = from; i <= NF; i++) text = text " " $i
  return text
}
function lane(greenlet, text) { printf "%*s%s %s\n", (substr(greenlet, 2) + 0) * 22, "", greenlet, text }
