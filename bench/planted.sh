#!/bin/sh
# Plants the bugs of planted/ again, each in a copy of its crate, and tells which of them the prover refuses:
#     bench/planted.sh [-a] [-f] [CRATE | CRATE/BUG]..
# With -a it plants those of crates/CRATE/must-fail/ too, and with no word those of every crate. It ends with 0 where
# each is refused, but for those whose file has a line 'let through: REASON', which have to be let through.
# With -f it plants none, and tells in seconds which bugs still fit: whose 'old:' lines stand once in the file they name.
# RT_JOBS=1 before it keeps it to one processor; without, it takes all. It is no part of the gate. What rt ci passed on
# this machine of the same files, proofs and bugs, is taken from there.
fail() {
    printf '%s\n' "planted.sh: $1" >&2
    exit 1
}

both=
fits=
while getopts af option; do
    case $option in
    a) both=yes ;;
    f) fits=yes ;;
    *) fail 'usage: bench/planted.sh [-a] [-f] [CRATE | CRATE/BUG]..' ;;
    esac
done
shift $((OPTIND - 1))

bench=$(CDPATH='' cd -- "$(dirname -- "$0")" && pwd -P) || fail 'the folder of the script was not found'
home=$(dirname -- "$bench")
cd "$home" || fail 'the top of the repository was not found'
command -v rt >/dev/null 2>&1 || fail 'there is no rt'
command -v git >/dev/null 2>&1 || fail 'there is no git'

work=$(mktemp -d "${TMPDIR:-/tmp}/planted.XXXXXX") || fail 'no folder to work in could be made'
running=
clean_up() {
    # whatever rt has started ends with it
    [ -z "$running" ] || { kill "$running" && wait "$running"; } 2>/dev/null
    rm -rf -- "$work"
}
trap clean_up EXIT
trap 'exit 1' HUP INT TERM

# ---- the bugs, a file each

[ $# -gt 0 ] || for crate in $(sed -n 's/^\([a-z0-9_][a-z0-9_]*\)[^#]*:.*/\1/p' crates.txt); do
    [ ! -d "planted/$crate" ] || set -- "$@" "$crate"
done
for word; do
    crate=${word%%/*}
    [ -d "planted/$crate" ] || fail "there is no folder planted/$crate"
    case $word in
    */*) set -- "planted/$word.edit" "crates/$crate/must-fail/${word#*/}.edit" ;;
    *) set -- "planted/$crate"/*.edit ${both:+"crates/$crate/must-fail"/*.edit} ;;
    esac
    found=
    for edit; do
        [ -f "$edit" ] || continue
        found=yes
        printf '%s %s\n' "$crate" "$edit"
    done
    [ -n "$found" ] || fail "there is no bug $word"
done >"$work/edits" || exit 1

# ---- whether they fit

# How often each old line stands in the file, as text.
if [ -n "$fits" ]; then
    while read -r crate edit; do
        awk -v top="crates/$crate/" -v bug="${edit%.edit}" '
            function times(whole, part,    n, at) {
                while ((at = index(whole, part)) > 0) {
                    n++
                    whole = substr(whole, at + length(part))
                }
                return n + 0
            }
            sub(/^file: /, "") {
                file = top $0
                whole = ""
                while ((getline line < file) > 0) whole = whole line "\n"
                close(file)
                next
            }
            sub(/^old: /, "") {
                asked++
                if (times(whole, $0) != 1) wrong++
            }
            END { print (asked && !wrong ? "fits" : "no longer fits") "  " bug }' "$edit"
    done <"$work/edits" >"$work/all"
    grep -v '^fits' "$work/all"
    printf '%s of %s fit\n' "$(grep -c '^fits' "$work/all")" "$(grep -c . "$work/all")"
    ! grep -qv '^fits' "$work/all"
    exit
fi

# ---- the copy

copy=$work/copy
mkdir "$copy" "$work/tmp" || fail 'no copy could be made'
git -c core.quotePath=off ls-files -- crates.txt HANDLES crates >"$work/listed" || fail 'git does not list the files'
while IFS= read -r file; do
    [ ! -e "$file" ] || printf '%s\n' "$file"
done <"$work/listed" >"$work/files"
tar -cf "$work/files.tar" -T "$work/files" && tar -xf "$work/files.tar" -C "$copy" || fail 'no copy could be made'
rm -rf -- "$work/files.tar" "$copy"/crates/*/must-fail
# (rt ci goes by the folder that git keeps its own in)
mkdir "$copy/.git" || fail 'no copy could be made'

take_edits() {
    to=$copy/crates/$1/must-fail
    mkdir "$to" || fail "there is no crate $1"
    while read -r of edit; do
        [ "$of" = "$1" ] || continue
        cmp -s -- "$edit" "$to/${edit##*/}" && continue
        [ ! -e "$to/${edit##*/}" ] || fail "two bugs are named ${edit##*/}"
        cp -- "$edit" "$to/" || fail "$edit was not copied"
    done <"$work/edits"
}

# ---- the verdicts

# What rt said of edits, in our words: the crate and the bug, the verdict, and why, with TABs between.
# Where a proof only missed a name that the edit took away, no clause was asked: the edit has to be fitted anew.
in_our_words() {
    awk '
        function tell() {
            if (bug != "") printf "%s\t%s\t%s\n", bug, verdict, why
            bug = ""
        }
        /^rt: / { tell() }
        /^rt: must-fail [^ ]*\.edit: / {
            bug = $3
            sub(/\.edit:$/, "", bug)
            said = $0
            sub(/^rt: must-fail [^ ]* /, "", said)
            why = ""
            if (said ~ /^refused, as it must be \(only because a proof file names/) {
                verdict = "no longer fits"
                why = said
                sub(/^[^)]*\)(: )?/, "", why)
                why = "a name that a proof cites is gone: " why
            } else if (said ~ /^refused, as it must be \(only by a limit/) {
                verdict = "refused"
                why = "by a limit of the prover alone"
            } else if (said ~ /^refused, as it must be/) {
                verdict = "refused"
                why = said
                sub(/^refused, as it must be(: )?/, "", why)
            } else if (said ~ /^NOT REFUSED: /) {
                verdict = "let through"
            } else if (said ~ /^BAD EDIT: /) {
                verdict = "no longer fits"
                why = substr(said, 11)
            } else {
                verdict = "not tried"
                why = said
                sub(/^NOT TRIED: /, "", why)
            }
            next
        }
        # what the compiler said of the edited text
        bug != "" && why ~ /said:$/ && /error/ { why = why " " $0 }
        END { tell() }' "$1"
}

# Runs rt in a folder, and keeps what it says.
run_rt() {
    (cd "$1" && shift && TMPDIR="$work/tmp" exec rt "$@") >"$work/said" 2>&1 </dev/null &
    running=$!
    wait "$running"
    set -- $?
    running=
    return "$1"
}

tab=$(printf '\t')
crates=$(awk '!seen[$1]++ { print $1 }' "$work/edits")
for crate in $crates; do
    take_edits "$crate"
    printf '%s\n' "planted.sh: $crate, $(($(find "$copy/crates/$crate/must-fail" -name '*.edit' | wc -l))) to plant" >&2
done
# (the names are words of their own)
run_rt "$copy" ci $crates
in_our_words "$work/said" >"$work/verdicts"
for crate in $crates; do
    # a crate that is not proved as it stands would refuse each bug
    untold='rt said nothing of it'
    ! grep -q "^rt: $crate NOT PROVED" "$work/said" || untold='the crate is not proved as it stands'
    for edit in "$copy/crates/$crate/must-fail"/*.edit; do
        bug=$crate/$(basename -- "$edit" .edit)
        line=$(awk -F '\t' -v bug="$bug" '$1 == bug { print; exit }' "$work/verdicts")
        wanted=refused
        ! grep -q '^let through:' "$edit" || wanted='let through'
        printf '%s\t%s\n' "$wanted" "${line:-$bug${tab}not tried${tab}$untold}"
    done
done >"$work/all"
awk -F '\t' '{ printf "%-14s  %s%s\n", $3, $2, $4 == "" ? "" : " (" $4 ")" }' "$work/all"
# what rt said, where that is needed to see why
! grep -q "${tab}not tried${tab}" "$work/all" || sed 's/^/planted.sh: /' "$work/said" >&2

# ---- the totals

awk -F '\t' '
    {
        split($2, part, "/")
        crate = part[1]
        if (!(crate in planted)) order[++crates] = crate
        planted[crate]++
        planted["all"]++
        came[crate, $3]++
        came["all", $3]++
        if ($1 != $3) differs[++differing] = $2 ": " $3 ", and not " $1
    }
    function row(name, shown) {
        printf "| %s | %d | %d | %d | %d | %d |\n", shown, planted[name], came[name, "refused"],
            came[name, "let through"], came[name, "no longer fits"], came[name, "not tried"]
    }
    END {
        print "\n| Crate | Planted | Refused | Let through | No longer fits | Not tried |\n|---|---|---|---|---|---|"
        for (at = 1; at <= crates; at++) row(order[at], "`" order[at] "`")
        row("all", "all")
        if (differing) print "\nOtherwise than the file says:"
        for (at = 1; at <= differing; at++) print differs[at]
        exit (differing > 0 || !planted["all"])
    }' "$work/all"
