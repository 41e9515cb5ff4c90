#!/usr/bin/env bash
# Proves, and says how far it has come: a line for each crate that is proved, and everything of one that is not.
#   prove.sh all             every crate, from nothing
#   prove.sh program NAME    the program and the crates below it: target/bin/NAME
#   prove.sh library NAME    the same for C: target/staticlib/libNAME.a
# What an earlier check proved and has not changed is not proved again, except by `all`.
set -u
cd "$(dirname "${BASH_SOURCE[0]}")/.." || exit 2
tools/kit.sh
[ $? -eq 2 ] && exit 2

# count [NAME]: how many crates the crate NAME reaches, itself among them; without a name, how many there are.
count() {
  awk -F: -v name="${1:-}" '
    function reach(crate, need, n, i) {
      if (crate in reached || !(crate in needs)) return
      reached[crate] = ++crates
      n = split(needs[crate], need, " ")
      for (i = 1; i <= n; i++) reach(need[i])
    }
    {sub(/#.*/, "")}
    # What a crate is made into stands behind its name.
    NF > 1 {split($1, head, " "); needs[head[1]] = $2}
    END {if (name) reach(name); else for (crate in needs) reach(crate); print crates}' crates.txt
}

# progress: shows what rt says as a line for each crate that is proved; of one that is not, everything. rt says all of a crate, then whether it is
# proved.
progress() {
  awk '
    /^== summary$/ {in_summary = 1; next}
    in_summary {if (!/: ok$/) print; next}
    /^== / {crate = $2; next}
    /^crate [a-z0-9_]+: / {crate = substr($2, 1, length($2) - 1)}
    # Before any proof a quick pass looks for mistakes.
    /^only=0 / {said = ""; next}
    /^logic=proved / {
      said = ""
      print "yokepear: " crate " is proved"
      fflush()
      next
    }
    /^rt: / && !/^rt: (chose|rt) / {print; fflush(); next}
    {said = said $0 "\n"}
    END {printf "%s", said}'
}

# made FROM TO: what a command left in a crate's folder, where the repository keeps such things.
made() { mkdir -p "$(dirname "$2")" && cp "$1" "$2"; }

prove() {
  case $1 in
    all) rt all verdict ;;
    # On no input a program says nothing.
    program) (cd "crates/$2" && rt run < /dev/null) && made "crates/$2/out/$2" "target/bin/$2" ;;
    # For any x86-64: a library does not test at its start, as a program does, whether the processor has what it was compiled for.
    library) (cd "crates/$2" && rt lib --cpu x86-64) && made "crates/$2/out/lib$2.a" "target/staticlib/lib$2.a" ;;
  esac
}

case "${1:-} $#" in
  'all 1' | 'program 2' | 'library 2') crates=$(count "${2:-}") ;;
esac
[ -n "${crates:-}" ] || { echo "usage: prove.sh all | program NAME | library NAME, a crate of crates.txt" >&2; exit 2; }
echo "yokepear: up to $crates crates to prove; from nothing this takes minutes"
prove "$@" 2>&1 | progress
exit "${PIPESTATUS[0]}"
