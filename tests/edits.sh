# edits.sh - edits of the crates, each tried on a copy: shell functions, to be read with '.'. The mutants of the rules and the twins share them. An edit has the form of a
# crate's must-fail edit: a 'file:' line, then pairs of 'old:' and 'new:', each old text once in the file; and a line 'crate: NAME' with the crate that it edits.
# A copy is checked by `rattle check`, as rt calls it, over a folder with what the check of the crate without an edit kept: only what the edit changes is checked again.
# A guard is an edit that has to be found wrong: it is harmless, or says nothing. Its file is named guard_.., and has a line 'guard:' with the verdict's first words.
#
#   edit_value KEY EDIT         the value of the line 'KEY: VALUE'
#   edit_apply EDIT DIR         puts an edit into the copy of a crate's folder; says what is wrong with it, if anything is
#   edit_first LOG              a log's first error
#   edit_place LOG              where that is, FILE:LINE:COLUMN
#   edit_misfit LOG             says why a log's first error shows no fact that fails, if it shows none: a name is gone, or a text cannot be read
#   edit_list DIR [NAME ..]     the edits of a folder, or those named, in edits
#   edit_begin TOP              a folder for copies, $edit_room; it is removed at the end
#   edit_below CRATE            the repository's crates below a crate, each after those that it uses
#   edit_copy TO CRATE ..       a copy of these crates' texts
#   edit_words CRATE FROM LIBS  in words: those of rattle for a check over the crates below, as FROM/crates has them: over their sources, which are checked too,
#                               or with LIBS 'built' over what rt has built of them
#   edit_keep CRATE FROM LIBS   the folder for edit_check, with what a check of the crate as it stands in FROM keeps; whether it is proved
#   edit_check CRATE COPY LOG FROM LIBS     checks the crate of a copy over its folder; the status is rattle's
#   edit_all TRY EDIT ..        TRY EDIT COPY LOG for each, COPY a folder of its own; TRY prints what it found, and its status says whether that is right. $edit_jobs at a
#                               time: where one has ended the next begins; their lines are in the order of the edits, 'ok NAME (COST): ..' or 'FAILED NAME (COST): ..'
#   edit_each CALL NAME ..      CALL NAME for each, $edit_jobs at a time; whether all went well
#   edit_count NAME LINE        prints such a line and counts it
#   edit_finish                 prints what failed and last 'N passed, M failed', and ends, with status 0 only if M is 0

. "$(dirname "${BASH_SOURCE[0]}")/progress.sh"

edit_command=${0#"$PWD"/} edit_passed=0 edit_failed=0

# how many at a time: as many as there are processors, and not more than four, for their memory
edit_jobs=$(nproc 2>/dev/null || echo 1)
[ "$edit_jobs" -le 4 ] || edit_jobs=4

edit_value() { # KEY EDIT
    sed -n "s/^$1: *//p" "$2" | head -n 1
}

# puts new in the place of old, which the file has exactly once
edit_substitute() { # FILE OLD NEW
    OLD=$2 NEW=$3 awk '
        { text = text $0 "\n" }
        END {
            old = ENVIRON["OLD"]
            at = old == "" ? 0 : index(text, old)
            if (!at) exit 3
            rest = substr(text, at + length(old))
            if (index(rest, old)) exit 4
            printf "%s%s%s", substr(text, 1, at - 1), ENVIRON["NEW"], rest
        }' "$1" >"$1.new"
    case $? in
    0) mv "$1.new" "$1" ;;
    3) echo "an 'old:' text is not in ${1##*/}"; return 1 ;;
    4) echo "an 'old:' text is in ${1##*/} more than once"; return 1 ;;
    *) echo "awk failed on ${1##*/}"; return 1 ;;
    esac
}

edit_apply() { # EDIT DIR
    local line file='' old='' pairs=0
    while IFS= read -r line || [ -n "$line" ]; do
        case $line in
        'file: '*) file=${line#file: } ;;
        'old: '*) old=${line#old: } ;;
        'new:'*)
            line=${line#new:}
            case $file in
            *../*) echo "a 'file:' line leads out of the crate"; return 1 ;;
            src/* | specs/* | proofs/*) ;;
            *) echo "a 'file:' line names no file under src/, specs/ or proofs/"; return 1 ;;
            esac
            [ -f "$2/$file" ] || { echo "there is no $file in the crate"; return 1; }
            edit_substitute "$2/$file" "$old" "${line# }" || return 1
            old='' pairs=$((pairs + 1))
            ;;
        esac
    done <"$1"
    [ "$pairs" -gt 0 ] || { echo "it has no 'old:' and 'new:' pair"; return 1; }
}

# every error, without those that only say that another was refused
edit_errors() { # LOG
    grep -E '^[^ ]+:[0-9]+:[0-9]+: error' "$1" | grep -vE 'was not admitted|was rejected, was not checked'
}

edit_first() { # LOG
    edit_errors "$1" | grep -m 1 . || grep -m 1 -E '^([^ ]+:[0-9]+:[0-9]+: error|note: [^ ]+:[0-9]+:[0-9]+:)' "$1"
}

edit_place() { # LOG
    edit_first "$1" | sed -E 's/^note: //; s/^([^ ]+:[0-9]+:[0-9]+):.*/\1/; s,^\./,,'
}

edit_misfit() { # LOG
    case $(edit_first "$1") in
    *"not in scope"* | *"has no field"* | *"has no \`"* | *"is no name"* | *"can be named from here"*) echo "a name is missing" ;;
    *"operand is missing"* | *"expected the end"* | *"cannot continue"*) echo "a text cannot be read" ;;
    *) return 1 ;;
    esac
}

edit_list() { # DIR [NAME ..]
    local dir=$1 edit
    shift
    if [ $# -eq 0 ]; then
        edits=("$dir"/*.edit)
    else
        edits=("${@/#/"$dir/"}") && edits=("${edits[@]/%/.edit}")
    fi
    for edit in "${edits[@]}"; do
        [ -f "$edit" ] || { echo "FAILED: there is no edit $(basename "$edit" .edit)"; edit_failed=1; edit_finish; }
    done
}

# where copies stand: in memory, where there is room for them, since each is some hundred small files
edit_home() {
    local room=4000000 # KiB
    if [ -z "${TMPDIR:-}" ] && [ -w /dev/shm ] && [ "$(df --output=avail -k /dev/shm 2>/dev/null | tail -n 1)" -gt "$room" ]; then echo /dev/shm; else echo "${TMPDIR:-/tmp}"; fi
}

edit_begin() { # TOP
    edit_top=$(cd "$1" && pwd -P) || exit 2
    edit_kit=$(dirname "$(rt doc)") && [ -x "$edit_kit/bin/rattle" ] || { echo "FAILED: Rattle's kit is not there"; edit_failed=1; edit_finish; }
    edit_room=$(mktemp -d -p "$(edit_home)") && edit_room=$(cd "$edit_room" && pwd -P) || exit 2
    trap 'rm -rf "$edit_room"' EXIT
    trap 'exit 130' INT TERM
    mkdir "$edit_room/kept"
}

# the libraries that a crate's line names: those of the repository, or with 'kit' those of the kit
edit_uses() { # CRATE [kit]
    CRATE=$1 KIT=${2:-} awk '
        { sub(/#.*/, "") }
        match($0, /^[a-z_0-9]+[^:]*:/) { name = $1; sub(/:.*/, "", name); uses[name] = substr($0, RLENGTH + 1) }
        END {
            n = split(uses[ENVIRON["CRATE"]], parts, " ")
            for (i = 1; i <= n; i++) if ((parts[i] in uses) != (ENVIRON["KIT"] == "kit")) print parts[i]
        }' "$edit_top/crates.txt"
}

edit_below() { # CRATE
    local name
    for name in $(edit_uses "$1"); do
        edit_below "$name"
        echo "$name"
    done | awk '!seen[$0]++'
}

edit_copy() { # TO CRATE ..
    local to=$1 name part
    shift
    for name in "$@"; do
        mkdir -p "$to/crates/$name" || return 1
        for part in src specs proofs; do
            [ ! -d "$edit_top/crates/$name/$part" ] || cp -R "$edit_top/crates/$name/$part" "$to/crates/$name/" || return 1
        done
    done
}

edit_words() { # CRATE FROM sources|built
    local name below libraries crates=$2/crates
    mapfile -t below < <(edit_below "$1")
    words=(--crate-name "$1" src/lib.rt --links "$1=" --jobs 1)
    words+=(--antt-project "$edit_kit/rattle/logic/antt-project.json" --logic-built "$edit_kit/logic_built" -L "dependency=$edit_kit/rlibs")
    if [ "$3" = built ]; then
        libraries=$(edit_uses "$1" kit; echo std)
        for name in $(edit_uses "$1"); do words+=(--extern "$name=$crates/$name/out/rlib/$name.rlib"); done
        for name in "${below[@]}"; do words+=(-L "dependency=$crates/$name/out/rlib"); done
    else
        libraries=$(for name in "$1" "${below[@]}"; do edit_uses "$name" kit; done; echo core; echo std)
        for name in "${below[@]}"; do
            words+=(--lib "$name:$( (echo core; echo std; edit_uses "$name" kit; edit_uses "$name") | awk '!seen[$0]++' | paste -sd ,)=$crates/$name/src/lib.rt")
        done
    fi
    for name in $(sort -u <<<"$libraries"); do words+=(--extern "$name=$edit_kit/rlibs/$name.rlib"); done
}

edit_keep() { # CRATE FROM sources|built
    local words kept=$edit_room/kept/$1
    mkdir -p "$kept" && edit_words "$@" || return 1
    if [ "$3" = built ] && [ -d "$2/crates/$1/out/incremental" ]; then cp -R "$2/crates/$1/out/incremental/." "$kept/" || return 1; fi
    if (cd "$2/crates/$1" && "$edit_kit/bin/rattle" check "${words[@]}" --incremental "$kept") >"$kept.log" 2>&1 && grep -q '^logic=proved' "$kept.log"; then return; fi
    { cat "$kept.log"; echo "FAILED: $1 is not proved without an edit"; } >"$kept.failed"
    return 1
}

edit_check() { # CRATE COPY LOG FROM sources|built
    local words
    cp -R "$edit_room/kept/$1" "$2/kept" && edit_words "$1" "$4" "$5" || return 2
    (cd "$2/crates/$1" && "$edit_kit/bin/rattle" check "${words[@]}" --incremental "$2/kept") >"$3" 2>&1
}

# the verdict of a guard: it has to be found wrong, in the words that its file has
edit_guarded() { # EDIT WORD SAID
    local verdict
    verdict=$(edit_value guard "$1")
    if [ "$2" = FAILED ] && [ -n "$verdict" ] && [ "${3#"$verdict"}" != "$3" ]; then echo "ok"; else echo "FAILED"; fi
}

# one edit in its own copy; its line is left in FILE.line
edit_one() { # TRY EDIT NAME FILE
    local said word=ok
    mkdir "$4"
    said=$(progress_cpu "$4.cpu" "$1" "$2" "$4" "$4.log") || word=FAILED
    case $3 in guard_* | *.guard_*) word=$(edit_guarded "$2" "$word" "$said") ;; esac
    rm -rf "$4"
    printf '%s\n' "$word $3 ($(progress_cost "$4.cpu")): $said" >"$4.part" && mv "$4.part" "$4.line"
}

edit_count() { # NAME LINE
    progress_clear
    printf '%s\n' "$2"
    if [[ $2 == "ok "* ]]; then
        edit_passed=$((edit_passed + 1))
    else
        edit_failed=$((edit_failed + 1))
        progress_fault "${2#FAILED }" "$edit_command" "$1"
    fi
}

edit_line() { # NAME
    cat "$edit_room/edit.$1.line" 2>/dev/null || echo "FAILED $1: it was not tried to its end"
}

edit_all() { # TRY EDIT ..
    local try=$1 edit names=() begun=0 told=0
    shift
    [ $# -gt 0 ] || return 0
    mapfile -t names < <(basename -s .edit "$@")
    for edit in "$@"; do
        if [ "$begun" -ge "$edit_jobs" ]; then
            wait -n
            while [ -f "$edit_room/edit.${names[told]}.line" ]; do edit_count "${names[told]}" "$(edit_line "${names[told]}")"; told=$((told + 1)); done
        fi
        progress_update "${names[begun]}, $begun of $# edits begun"
        edit_one "$try" "$edit" "${names[begun]}" "$edit_room/edit.${names[begun]}" &
        begun=$((begun + 1))
    done
    wait
    for edit in "${names[@]:told}"; do edit_count "$edit" "$(edit_line "$edit")"; done
}

edit_each() { # CALL NAME ..
    local call=$1 name begun=0
    shift
    for name in "$@"; do
        [ "$begun" -lt "$edit_jobs" ] || wait -n
        progress_update "$name without an edit, $begun of $# begun"
        "$call" "$name" &
        begun=$((begun + 1))
    done
    wait
    progress_clear
    ! cat "$edit_room/kept/"*.failed 2>/dev/null
}

edit_finish() {
    progress_finish
    echo "$edit_passed passed, $edit_failed failed"
    [ "$edit_failed" -eq 0 ]
    exit
}
