# shown.sh - by how long a list the trial shows a wrong library: shell functions, to be read with '.'.
#
#   shown_most CHECKS      how many calls that list may have, by a line of edits.txt: N where a check is 'trial:N', twelve elsewhere
#   shown_by LOG CALLS     whether the report of a trial has a list of at most so many calls

shown_most() { # CHECKS
  local check most=12
  for check in $1; do
    [[ $check != trial:* ]] || most=${check#trial:}
  done
  echo "$most"
}

shown_by() { # LOG CALLS
  local calls
  calls=$(sed -n 's/^The first .* shrunk from [0-9]* calls to \([0-9]*\)$/\1/p' "$1" | sort -n | head -n 1)
  [ -n "$calls" ] && [ "$calls" -le "$2" ]
}
