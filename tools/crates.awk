# The reader of crates.txt. Each crate with what it names: awk -f tools/crates.awk crates.txt
# The crates that some stand on and these themselves, each after those that it names:
# awk -v top="gvr own_world" -f tools/crates.awk crates.txt
{ sub(/#.*/, "") }
/^[a-z][^:]*:/ {
  split($0, sides, ":")
  split(sides[1], words, " ")
  names[++last] = words[1]
  uses[words[1]] = sides[2]
}
END {
  if (top == "") for (i = 1; i <= last; i++) tell(names[i])
  else for (i = split(top, tops, " "); i >= 1; i--) wanted[i] = tops[i]
  for (i = 1; i in wanted; i++) visit(wanted[i])
}
function tell(crate) { $0 = crate " " uses[crate]; $1 = $1; print }
function visit(crate,   named, count, i) {
  if (!(crate in uses) || crate in done) return
  done[crate] = 1
  count = split(uses[crate], named, " ")
  for (i = 1; i <= count; i++) visit(named[i])
  print crate
}
