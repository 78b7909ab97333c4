# progress.sh - which part of a run is made, how far it is and how long it takes: shell functions, to be read with '.'.
# It writes to standard error, so that what a run prints stays as it is: on a terminal one line that is rewritten, elsewhere plain lines, an update at most
# every ten seconds. What failed is kept and said at the end, with the command that repeats it alone.
#
#   progress_part NAME          a heading: the part begins
#   progress_update TEXT        how far it is
#   progress_while PID COMMAND ..   as long as the process runs; the command prints how far it is
#   progress_done [TEXT]        the part ended; its time
#   progress_took               prints the part's time so far, for a line of the run's own
#   progress_cpu FILE COMMAND ..    runs the command and leaves in the file what it cost; the status is the command's
#   progress_cost FILE          prints that: 5.2 CPU s
#   progress_fault WHAT [COMMAND ..]   one failure more, and the command that repeats it alone
#   progress_clear              before the run prints a line of its own
#   progress_finish             the time of all; on standard output what failed and how to repeat it

progress_begun=$SECONDS # of the whole run
progress_name=          # of the part
progress_since=$SECONDS # the part's beginning
progress_shown=         # whether the rewritten line stands on the terminal
progress_last=-10       # when the last update was printed, off a terminal
progress_faults=()
if [ -t 2 ]; then progress_terminal=1; else progress_terminal=; fi

# progress_time SECONDS: 7 s, 2 min 05 s
progress_time() {
  if [ "$1" -lt 60 ]; then
    echo "$1 s"
  else
    printf '%d min %02d s\n' $(($1 / 60)) $(($1 % 60))
  fi
}

progress_clear() {
  [ -z "$progress_shown" ] || printf '\r\033[K' >&2
  progress_shown=
}

progress_part() {
  progress_clear
  progress_name=$1 progress_since=$SECONDS progress_last=$SECONDS
  if [ -n "$progress_terminal" ]; then
    printf '%s ..' "$1" >&2
    progress_shown=1
  else
    echo "$1 .." >&2
  fi
}

progress_update() {
  if [ -n "$progress_terminal" ]; then
    printf '\r\033[K%s: %.60s, %s' "$progress_name" "$1" "$(progress_time $((SECONDS - progress_since)))" >&2
    progress_shown=1
  elif [ $((SECONDS - progress_last)) -ge 10 ]; then
    echo "$progress_name: $1, $(progress_time $((SECONDS - progress_since)))" >&2
    progress_last=$SECONDS
  fi
}

progress_while() {
  local process=$1
  shift
  while kill -0 "$process" 2>/dev/null; do
    progress_update "$("$@")"
    sleep 1
  done
}

progress_done() {
  progress_clear
  echo "$progress_name: ${1:-done}, $(progress_time $((SECONDS - progress_since)))" >&2
}

progress_took() { progress_time $((SECONDS - progress_since)); }

progress_cpu() {
  local TIMEFORMAT='%U %S' file=$1
  shift
  { time "$@" 2>&3 3>&-; } 3>&2 2>"$file"
}

progress_cost() { awk '{ printf "%.1f CPU s\n", $1 + $2 }' "$1"; }

progress_fault() {
  progress_faults+=("FAILED $1")
  shift
  [ $# -eq 0 ] || progress_faults+=("  again, alone: $*")
}

progress_finish() {
  progress_clear
  echo "all parts: $(progress_time $((SECONDS - progress_begun)))" >&2
  [ ${#progress_faults[@]} -eq 0 ] || printf '%s\n' "${progress_faults[@]}"
}
