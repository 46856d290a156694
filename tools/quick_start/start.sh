# Sourced by ./vdpm, ./prepare, ./simplify, ./pack and ./paint, which set `name`: runs the program
# of that name with the words given, the proved one where it is of the sources as they stand, and
# else one that isn't proved.
#
# A program is taken at once where its record (NAME.record beside it, see record.py) has its sum,
# and nothing in crates.txt or a crate below it changed since the record's time; the time of a
# file's status counts, which no copy and no `touch` sets back. Of an unproved program the record
# is also to be no older than a proved one's, since it was then seen that the proved one is of
# other sources. Else programs.py reads all the sources, builds where it has to, and says which
# program to take. So a program that was built before never stands in for newer sources.
top=$(cd "$(dirname "${BASH_SOURCE[0]}")/../.." && pwd) || exit 70
. "$top/tools/quick_start/hints.sh" || exit 70
answer_help "$@"
answer_version "$@"
refuse_files "$@"
tell_kind "${1-}"

is_fresh() {
    local key rest sum='' places=()
    [ -x "$1" ] && [ -r "$1.record" ] || return 1
    while read -r key rest; do
        case $key in
            sum) sum=$rest ;;
            from) places+=("$rest") ;;
        esac
    done <"$1.record"
    [ "${#places[@]}" -gt 0 ] && [ "$(sha256sum <"$1")" = "$sum  -" ] &&
        [ -z "$(newer "$1.record" "${places[@]}")" ]
}

# The first that is newer than the file $1, of the other places but the out/ of their crates.
newer() {
    local record=$1
    shift
    (cd "$top" && find "$@" -path 'crates/*/out' ! -path 'crates/*/*/out' -prune \
        -o -cnewer "$record" -print -quit) 2>&1
}

# Ends with the status $1, or with 70 where that would be one of the program's own.
stop() {
    [ "$1" -gt 5 ] && exit "$1"
    exit 70
}

proved="$top/proved/$name"
program=$proved
if ! is_fresh "$proved"; then
    program="$top/unproved/$name"
    if [ "$proved.record" -nt "$program.record" ] || ! is_fresh "$program"; then
        if ! command -v python3 >/dev/null; then
            echo "$name: python3 isn't on the path, so nothing can be built" >&2
            exit 70
        fi
        program=$(python3 "$top/tools/programs.py" build "$name" </dev/null) || stop $?
    fi
fi
if [ "$program" != "$proved" ]; then
    how="./prove proves it"
    if [ -r "$program.record" ] && [[ $(<"$program.record") == *$'\nkit cargo '* ]]; then
        how="cargo built it"
    fi
    echo "$name: not proved on this machine yet, run-time checks are on; $how" >&2
fi
exec "$program" "$@"
