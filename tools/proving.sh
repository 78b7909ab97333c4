# proving.sh - builds a crate by rt, and says how far that is: shell functions, to be read with '.' after tests/progress.sh, in the repository's top folder.
#
#   proving LOG CRATE           proves CRATE and what it needs and builds it, with rt's output in LOG, and says which crate is being proved. A library becomes
#                               crates/CRATE/out/libCRATE.a where crates.txt lists it as a static library, a program crates/CRATE/out/CRATE
#   proving_failed LOG CRATE    what was not proved, and the command that proves it alone

# the crates that a crate needs and the crate, one a line, in the order in which rt builds them
proving_crates() { # CRATE
  WANTED=$1 awk '
    { sub(/#.*/, "") }
    match($0, /^[a-z_0-9]+[^:]*:/) { name = $1; sub(/:.*/, "", name); needs[name] = substr($0, RLENGTH + 1) }
    function visit(name,    parts, n, i) {
      if (!(name in needs) || name in seen) return
      seen[name] = 1
      n = split(needs[name], parts, " ")
      for (i = 1; i <= n; i++) visit(parts[i])
      print name
    }
    END { visit(ENVIRON["WANTED"]) }' crates.txt
}

# rt names each crate that it begins to prove
proving_look() { # LOG CRATE ..
  local log=$1 name at=0
  shift
  name=$(sed -n 's/^rt: chose --jobs [0-9]* for //p' "$log" 2>/dev/null | tail -n 1)
  for crate in "$@"; do
    at=$((at + 1))
    [ "$crate" != "$name" ] || progress_update "proving $name, crate $at of $#"
  done
}

# rt stands in front, so that an interrupt ends it; what watches it ends with it, and keeps no one waiting who reads what is printed. A program is run once, on
# nothing, since rt has no other word that builds one.
proving() { # LOG CRATE
  local log=$1 crate=$2 crates word=lib watch status
  [ ! -f "crates/$crate/src/main.rt" ] || word=run
  mapfile -t crates < <(proving_crates "$crate")
  mkdir -p "$(dirname "$log")" && : >"$log" || return 2
  (while sleep 1 && kill -0 $$ 2>/dev/null; do proving_look "$log" "${crates[@]}"; done) >/dev/null &
  watch=$!
  (cd "crates/$crate" && exec rt "$word" </dev/null) >"$log" 2>&1
  status=$?
  kill "$watch" 2>/dev/null
  wait "$watch" 2>/dev/null
  progress_shown=$progress_terminal
  progress_clear
  return "$status"
}

proving_failed() { # LOG CRATE
  local name
  tail -n 20 "$1"
  name=$(sed -n 's/^rt: the library \([a-z_0-9]*\) did not build.*/\1/p' "$1" | head -n 1)
  name=${name:-$2}
  progress_fault "$name was not proved; $1 has all that rt said" "cd crates/$name && rt check"
}
