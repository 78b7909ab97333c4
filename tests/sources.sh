# sources.sh - the C sources that runs share, in one place; to be read with '.' after root is set to the repository.
# parts: of the C version; version: they and its ledger; common: calls, listings, drawing and comparing; includes: where their headers stand.
parts=(table legal reference labels)
version=("$root"/tests/reference/{table,legal,reference,labels,ledger}.c)
common=("$root"/tests/common/*.c)
includes=("-I$root/include" "-I$root/tests/reference" "-I$root/tests/common")
# why: the program that says why a memory is refused
why=("$root"/tools/why/*.c "$root"/tests/reference/{table,legal}.c "$root/tests/common/words.c")
strict=(-std=c11 -Wall -Wextra -Werror -pedantic)
# the functions' names: the calls, from their list, and those of labels
functions=($(sed -n 's/^CALL([A-Z_]*, \([a-z_]*\),.*/\1/p' "$root/tests/common/calls.def") label_read label_write)
