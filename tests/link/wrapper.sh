# wrapper.sh - the command listing as its users meet it: shell functions, to be read with '.' after root and work are set, and 'try', as in run.

# The command as it is installed, over the proved program where that is built, or else over the C version's.
make_wrapper() {
  local tree=$work/wrapper
  mkdir -p "$tree/bin" "$tree/libexec/product_table" "$tree/files" || return 1
  cp "$root/listing" "$tree/bin/listing" && cp "$root/tests/listing/document-01.in" "$tree/files/-calls" || return 1
  if [ -x "$root/crates/listing/out/listing" ]; then
    cp "$root/crates/listing/out/listing" "$tree/libexec/product_table/listing"
  else
    . "$root/tests/sources.sh"
    gcc "${strict[@]}" "${includes[@]}" "$root/tests/programs/listing.c" "${version[@]}" "${common[@]}" -o "$tree/libexec/product_table/listing"
  fi
}

# says STATUS OUT ERROR COMMAND: what bash's COMMAND ends with and prints, by patterns; in it 'listing' is the command and -calls the listing of document 01.
says() {
  local status out error
  out=$(cd "$work/wrapper/files" && PATH=$work/wrapper/bin:$PATH timeout 10 bash -c "$4" 2>"$work/error")
  status=$?
  error=$(cat "$work/error")
  # shellcheck disable=SC2053 # patterns
  [ "$status" -eq "$1" ] && [[ $out == $2 && $error == $3 ]] && return
  printf '%s\n' "$4" "status $status" "$out" "$error"
  return 1
}

try_wrapper() {
  local answers usage=$'\nusage: listing *'
  answers=$(cat "$root/tests/listing/document-01.out")
  try "the command listing" make_wrapper
  try "listing: a file" says 0 "$answers" "" 'listing ./-calls'
  try "listing: standard input" says 0 "$answers" "" 'listing <-calls'
  try "listing: - is standard input" says 0 "$answers" "" 'listing - <-calls && listing -- - </dev/null'
  try "listing: -- ends the options" says 0 "$answers" "" 'listing -- -calls'
  try "listing: standard input closed" says 1 "" "listing: standard input is closed" 'listing <&-'
  try "listing: a file, standard input closed" says 0 "$answers" "" 'listing ./-calls <&-'
  try "listing: a file, standard error closed" says 0 "$answers" "" 'listing ./-calls 2>&-'
  try "listing: standard output closed" says 1 "" "listing: cannot write: standard output is closed" 'listing ./-calls >&-'
  try "listing: all closed" says 1 "" "" 'listing <&- >&- 2>&-'
  try "listing: a full device" says 1 "" "listing: *No space left on device" 'listing ./-calls >/dev/full'
  try "listing: no such file" says 1 "" "listing: *No such file or directory" 'listing none'
  try "listing: a folder" says 1 "" "listing: *Is a directory" 'listing .'
  try "listing: --help" says 0 "usage: listing *" "" 'listing --help'
  try "listing: -h" says 0 "usage: listing *" "" 'listing -h'
  try "listing: --help, a full device" says 1 "" "listing: cannot write*" 'listing --help >/dev/full'
  try "listing: an unknown option" says 2 "" "listing: unknown option: -calls$usage" 'listing -calls'
  try "listing: two files" says 2 "" "listing: more than one file$usage" 'listing ./-calls -'
}
