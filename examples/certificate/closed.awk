# Whether the states of a certificate are closed in a task, found without the planner.
# Usage: awk -f closed.awk TASK CERTIFICATE, where TASK is what `ground` prints. Status 0 where they are, else 1.
function fill(set, numbers,    n, i, word) {
  delete set
  n = split(numbers, word, " ")
  for (i = 1; i <= n; i++) set[word[i] + 0] = 1
}
function key(set,    p, text) {
  for (p = 0; p < atoms; p++) if (p in set) text = text " " p
  return text
}
function within(numbers, set,    n, i, word) {
  n = split(numbers, word, " ")
  for (i = 1; i <= n; i++) if (!((word[i] + 0) in set)) return 0
  return 1
}
function fault(why) { print "not closed: " why; failed = 1; exit 1 }
BEGIN { acts = 0; listed = 0 }
NR == FNR && $1 == "atoms" { atoms = $2 }
NR == FNR && $1 == "act" { sub(/^[^)]*\) pre/, ""); split($0, part, / (add|del)/); pre[acts] = part[1]; add[acts] = part[2]; del[acts++] = part[3] }
NR == FNR && $1 == "init" { sub(/^init/, ""); fill(start, $0) }
NR == FNR && $1 == "goal" { sub(/^goal/, ""); goal = $0 }
NR != FNR && $1 == "states" { count = $2 }
NR != FNR && $1 == "state" { sub(/^state/, ""); states[listed++] = $0; fill(set, $0); known[key(set)] = 1 }
END {
  if (failed) exit 1
  if (listed != count || !(key(start) in known)) fault("the number of states or the opening state")
  for (k = 0; k < listed; k++) {
    fill(set, states[k])
    for (p in set) if (p + 0 >= atoms) fault("state " k " has a number that is no atom")
    if (within(goal, set)) fault("state " k " has all goals")
    for (a = 0; a < acts; a++) if (within(pre[a], set)) {
      fill(next_set, states[k])
      n = split(del[a], word, " "); for (i = 1; i <= n; i++) delete next_set[word[i] + 0]
      n = split(add[a], word, " "); for (i = 1; i <= n; i++) next_set[word[i] + 0] = 1
      if (!(key(next_set) in known)) fault("state " k " act " a)
    }
  }
  print "closed: " listed " states, so there is no plan"
}
