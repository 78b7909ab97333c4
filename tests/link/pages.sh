# pages.sh - the man pages and the release: shell functions, to be read with '.' after root, work, warnings and archive are set.

# The number of the header's release, which the changes, the man pages and the pkg-config file have too.
release() { sed -n 's/^#define PT_RELEASE *"\(.*\)"$/\1/p' "$root/include/product_table.h"; }

# header_number NAME
header_number() { sed -n "s/^#define $1 *\([0-9]*\).*/\1/p" "$root/include/product_table.h"; }

one_release() {
  local page
  [ "$(release)" = "$(header_number PT_RELEASE_MAJOR).$(header_number PT_RELEASE_MINOR)" ] || return 1
  sed -n 's/^| \([0-9.]*\) |.*/\1/p' "$root/CHANGELOG.md" | head -n 1 | diff - <(release) || return 1
  for page in $(grep -l '^\.TH' "$root"/docs/*.[13]); do
    sed -n 's/^\.TH.*"product_table \(.*\)" ".*/\1/p' "$page" | diff - <(release) || { echo "$page"; return 1; }
  done
}

# block NUMBER: of the blocks of program text in the library's page, as it is meant
block() {
  awk -v wanted="$1" '/^\.EX$/ { n++; inside = n == wanted; next } /^\.EE$/ { inside = 0 } inside' "$root/docs/product_table.3" |
    sed 's/\\e/\\/g; s/\\-/-/g'
}

# The page's program prints what the page says.
page_program() {
  block 1 >"$work/page.c" && gcc -std=c11 "${warnings[@]}" "$work/page.c" "$archive" -o "$work/page" &&
    "$work/page" | diff - <(block 2)
}

# Lines of calls and programs fit onto a screen. A macro's arguments are set side by side.
narrow() {
  awk -v columns=80 -v margin=7 '
    FNR == 1 || /^\.(fi|EE)$/ { fixed = 0 }
    fixed {
      line = $0
      if (sub(/^\.[A-Z]+ /, "", line)) gsub(/"/, "", line)
      gsub(/\\[e-]/, "-", line)
      if (margin + length(line) > columns) { print FILENAME ": " $0; wide = 1 }
    }
    /^\.(nf|EX)$/ { fixed = 1 }
    END { exit wide }' "$root"/docs/*.3 "$root/docs/listing.1"
}

# page_links TREE: every function of the header has a page below an installed tree, its own or one that is there.
page_links() {
  local name page
  for name in $(names) pt_message; do
    page=$1/share/man/man3/$name.3
    if grep -q '^\.so ' "$page"; then page=$1/share/man/$(sed -n 's/^\.so //p' "$page"); fi
    grep -q "^\.SH NAME" "$page" && sed -n '/^\.SH NAME/{n;p}' "$page" | grep -q "\b$name\b" || { echo "$name"; return 1; }
  done
}
