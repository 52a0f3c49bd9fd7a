# Makes the table of what was measured: lines `ns GRAMMAR SET WORDS STEP VALUE` for times and `ir ..` for instructions, of 16 lines each.

{ value[$1, $2, $3, $4, $5] = $6; has[$1] = 1 }

function known(unit, key, step) { return (unit SUBSEP key SUBSEP step) in value }

# What a step takes less another for each word, or "" where one was not measured.
function difference(unit, key, words, step, less) {
  if (!known(unit, key, step)) return ""
  if (less == "") return value[unit, key, step] / 16 / words
  if (!known(unit, key, less)) return ""
  return (value[unit, key, step] - value[unit, key, less]) / 16 / words
}

function number(v) { return v == "" ? "-" : sprintf(v < 100 ? "%.1f" : "%.0f", v) }
function ratio(v, ours) { return v == "" || ours == "" || ours <= 0 ? "-" : sprintf("%.2f", v / ours) }

function cells(unit, ours, marpa, bison) {
  return sprintf("| %s | %s | %s | %s | %s ", number(ours), number(marpa), ratio(marpa, ours), number(bison), ratio(bison, ours))
}

# One row: for each unit what the step takes less the other.
function row(grammar, set, words, task, step, less, start, unit, u, line, ours, marpa, bison, key) {
  key = grammar SUBSEP set SUBSEP words
  line = sprintf("| %s | %s | %d | %s ", grammar, set, words, task)
  for (u = 1; u <= 2; u++) {
    unit = u == 1 ? "ns" : "ir"
    if (!has[unit]) continue
    if (task == "counting") ours = difference(unit, key, words, "walk-count", "walk-read")
    else ours = difference(unit, key, words, "ours-" step, "ours-" (less == "" ? "book" : less))
    marpa = difference(unit, key, words, "marpa-" step, "marpa-" (less == "" ? "start" : less))
    bison = less == "" ? difference(unit, key, words, "bison-" step, "") : ""
    line = line cells(unit, ours, marpa, bison)
    if (ours > 0 && less == "") note(grammar, task, unit, marpa / ours)
  }
  print line "|"
}

function note(grammar, task, unit, r) {
  if (!((grammar, task, unit) in least) || r < least[grammar, task, unit]) least[grammar, task, unit] = r
}

function per_line(name, step, less, g, grammar, unit, u, line, key) {
  for (g = 1; g <= 2; g++) {
    grammar = order[g]
    line = sprintf("| %s | %s ", name, grammar)
    key = grammar SUBSEP "plain" SUBSEP 5
    for (u = 1; u <= 2; u++) {
      unit = u == 1 ? "ns" : "ir"
      if (has[unit]) line = line sprintf("| %s ", number(difference(unit, key, 1, step, less)))
    }
    print line "|"
  }
}

END {
  split("rules no-rules", order); split("plain mixed", sets); split("5 19 33 47", lengths)
  head = "| grammar | lines | words | task "; under = "|---|---|---|---"
  for (u = 1; u <= 2; u++) {
    unit = u == 1 ? "ns" : "instructions"
    if (!has[u == 1 ? "ns" : "ir"]) continue
    head = head "| " unit " | libmarpa | ratio | bison | ratio "; under = under "|---|---|---|---|---"
  }
  print head "|"; print under "|"
  for (g = 1; g <= 2; g++) for (s = 1; s <= 2; s++) for (l = 1; l <= 4; l++) {
    row(order[g], sets[s], lengths[l], "reading", "read", "")
    row(order[g], sets[s], lengths[l], "listing", "list", "read")
    row(order[g], sets[s], lengths[l], "reading and listing", "list", "")
    row(order[g], sets[s], lengths[l], "counting", "count", "read")
  }
  print ""
  head = "| for each line | grammar "; under = "|---|---"
  if (has["ns"]) { head = head "| ns "; under = under "|---" }
  if (has["ir"]) { head = head "| instructions "; under = under "|---" }
  print head "|"; print under "|"
  per_line("the book, sealed, and a reading opened", "ours-book", "")
  per_line("a listing that there is not", "ours-empty", "ours-book")
  per_line("libmarpa: the grammar, precomputed", "marpa-grammar", "")
  per_line("libmarpa: a recognizer, and its end", "marpa-start", "")
  print ""
  tasks[1] = "reading"; tasks[2] = "reading and listing"
  for (g = 1; g <= 2; g++) for (t = 1; t <= 2; t++) for (u = 1; u <= 2; u++) {
    unit = u == 1 ? "ns" : "ir"
    if (!has[unit]) continue
    printf "least ratio of libmarpa, %s, %s, %s: ", order[g], tasks[t], u == 1 ? "time" : "instructions"
    printf "%.2f\n", least[order[g], tasks[t], unit]
  }
}
