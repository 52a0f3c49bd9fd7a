# What each function took by itself in a dump of callgrind, the greatest first: awk -f bench/profile.awk bench/out/callgrind.N

function name(text) {
  if (match(text, /^\([0-9]+\) /)) names[substr(text, 1, RLENGTH - 1)] = substr(text, RLENGTH + 1)
  match(text, /^\([0-9]+\)/)
  return names[substr(text, 1, RLENGTH)]
}

/^desc: Trigger/ { print }
/^fn=/ { current = name(substr($0, 4)) }
/^cfn=/ { name(substr($0, 5)) }
/^calls=/ { called = 1; next }
/^[-+*0-9]/ { if (!called) { own[current] += $2; all += $2 } called = 0 }
END {
  for (f in own) printf "%12d %5.1f%% %s\n", own[f], 100 * own[f] / all, f | "sort -rn | head -n 12"
}
