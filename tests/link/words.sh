# words.sh - the words of ./build as their users meet them: shell functions, to be read with '.' after root and work are set, and 'try', as in run.

# A repository in which 'rt' proves nothing and counts that it was asked.
make_words() {
  local tree=$work/words name
  mkdir -p "$tree/bin" "$tree/crates/"{product_table,product_table_c,listing}/src || return 1
  cp "$root/build" "$root/crates.txt" "$tree" && touch "$tree/crates/product_table/src/lib.rt" || return 1
  for name in tests tools include docs examples; do
    ln -s "$root/$name" "$tree/$name" || return 1
  done
  touch "$tree/crates/listing/src/main.rt" || return 1
  cat >"$tree/bin/rt" <<'END' && chmod +x "$tree/bin/rt"
#!/bin/sh
crate=$(basename "$PWD")
echo "$crate: $*" >>../../asked
mkdir -p out
case $crate:$* in
product_table_c:lib) echo made >out/libproduct_table_c.a ;;
listing:run) echo made >out/listing ;;
*) exit 1 ;;
esac
END
}

words() { (cd "$work/words" && PATH=$work/words/bin:$PATH ./build "$@"); }

# refused ARGUMENT..: with the usage, and nothing was made
refused() {
  local status
  rm -f "$work/words/asked"
  words "$@" >"$work/out" 2>"$work/error"
  status=$?
  cat "$work/error"
  [ "$status" -eq 2 ] && [ ! -s "$work/out" ] && grep -iq '^usage: ' "$work/error" && [ ! -e "$work/words/asked" ]
}

# all_refused: a word that is none, arguments too many, and others than the usage has
all_refused() {
  local line arguments
  while IFS= read -r line; do
    read -ra arguments <<<"$line"
    refused "${arguments[@]}" || { echo "./build $line"; return 1; }
  done <<'END'

nothing
lib extra
listing extra
archive extra
test extra
bench extra
exhaustive extra
example extra
clean extra
help extra
shared folder extra
wrong pattern extra
fuzz abc
fuzz 0
fuzz 5 extra
hall abc
hall 0
hall full abc
hall 5 extra
pictures extra
install
install folder extra
trial
trial --unknown
END
}

# made_once WORD FILE: made where it is missing, not made again, and made again after a source was changed or removed
made_once() {
  rm -f "$work/words/asked"
  [ "$(words "$1")" = "build: $2" ] && [ "$(words "$1")" = "build: $2 is up to date" ] || return 1
  touch "$work/words/crates/product_table/src/lib.rt"
  [ "$(words "$1")" = "build: $2" ] || return 1
  touch "$work/words/crates/product_table/src/other.rt" && rm "$work/words/crates/product_table/src/other.rt"
  [ "$(words "$1")" = "build: $2" ] && [ "$(wc -l <"$work/words/asked")" -eq 3 ]
}

try_words() {
  try "a repository for ./build" make_words
  try "./build: what is not in its usage is refused" all_refused
  try "./build lib: only where it has to be" made_once lib target/libproduct_table.a
  try "./build listing: only where it has to be" made_once listing target/listing
}
