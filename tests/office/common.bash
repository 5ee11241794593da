# What the tests of the office share. The script that sources it was started with the folder of the built programs.
set -euo pipefail
programs=$(cd "$1" && pwd)
here=$(cd "$(dirname "${BASH_SOURCE[0]}")" && pwd)
examples=$here/../../examples
# A script that this one starts is in another folder.
if [[ -n ${ROZHINAL_UNDER-} ]]; then
    ROZHINAL_UNDER=$(realpath "$ROZHINAL_UNDER")
fi
under=(${ROZHINAL_UNDER:+"$ROZHINAL_UNDER"})
[[ -e $programs/crash.so ]] || { echo "there is no crash.so" >&2 && exit 1; }
work=$(realpath "$(mktemp -d)")
office_id=
trap 'if [[ -n $office_id ]]; then kill -9 "$office_id" 2>/dev/null || true; fi; chmod -R u+w "$work"; rm -rf "$work"' EXIT
cd "$work"

fail() {
    echo "${0##*/}: $*" >&2
    exit 1
}

# Shown and stored must be the same, wherever the tests are run.
compare() {
    sed -i "s|$work|WORK|g" shown
    if [[ -n ${ROZHINAL_RECORD-} ]]; then
        cp shown "$here/$1.out"
    fi
    diff "$here/$1.out" shown >&2 || fail "$1 went another way"
}

# One run: what is typed, then the arguments. It is started by `plainly`, if that is set.
plainly=()
office() {
    local typed=$1 status=0
    shift
    "${plainly[@]}" "${under[@]}" "$programs/office" "$@" <"$typed" >>shown 2>&1 || status=$?
    echo "exit $status" >>shown
}

# A whole conversation of its own.
converse() {
    : >shown
    office "$here/$1.in" "${@:2}"
    compare "$1"
}

# A run that is not shown, nor held under another program. Commands of it may be refused.
prepare() {
    local typed=$1 status=0
    shift
    "$programs/office" "$@" <"$typed" >/dev/null 2>&1 || status=$?
    [[ $status -le 1 ]] || fail "an office ended with $status"
}

# The bytes of a file in hex.
from_hex() {
    python3 -c 'import sys; sys.stdout.buffer.write(bytes.fromhex(sys.stdin.read()))' <"$1"
}

make_sheet() {
    python3 "$examples/maker.py" sheet "$1" "$2"
}

# sheet_of LEDGER: the sheet that it holds
sheet_of() {
    tail -c +29 "$1" | head -c "$(od -An -tu4 -j16 -N4 "$1")"
}

# ---- A disk that goes another way ----

# The calls of a save, as crash.so counts them: the copy of the standing file is written and synced, then the new file; the
# copy is renamed, then the new file; the folder is synced. The first save of a ledger has nothing to copy.
save_calls=7 first_save_calls=4
# After a post or a swap its line in the log is written and synced.
log_calls=2

# calls_of COMMAND: how many calls it makes, with its save; `begin` stands for a ledger that begins.
calls_of() {
    case $1 in
    begin) echo "$first_save_calls" ;;
    post* | swap*) echo $((save_calls + log_calls)) ;;
    *) echo "$save_calls" ;;
    esac
}

# disturbed WAY CALL ARGUMENT...: an office with what is typed, and this call to the disk goes another way. The way is one of
# crash.so with its value; FAILS stands for none.
disturbed() {
    local status=0
    env LD_PRELOAD="$programs/crash.so" "ROZHINAL_$1" ROZHINAL_AT="$2" "${under[@]}" "$programs/office" "${@:3}" \
        <typed >>shown 2>&1 || status=$?
    # The line of counts was cut off.
    if [[ $status -eq 77 && -n $(tail -c 1 shown) ]]; then echo >>shown; fi
    echo "exit $status" >>shown
}

# what_is_left LEDGER: the files that a save had not done with
what_is_left() {
    local file
    for file in "$1.old-new" "$1.new"; do
        if [[ -e $file ]]; then echo "$file"; fi
    done
}
nothing_is_left() { # LEDGER, and when
    [[ -z $(what_is_left "$1") ]] || fail "$2: a save has left" $(what_is_left "$1")
}

# ---- An office that waits for the next command ----

# begin ARGUMENT...: starts it; its first line is shown
begin() {
    rm -f to from
    mkfifo to from
    "${under[@]}" "$programs/office" "$@" <to >from 2>&1 &
    office_id=$!
    exec 3>to 4<from
    answer
}
# answer: the next line is shown; tell COMMAND: it is taken, and the line that answers it is shown
answer() {
    local line
    IFS= read -r line <&4 || fail "the office does not answer"
    echo "$line" >>shown
}
tell() {
    echo "$1" >&3
    answer
}
# finish: the office comes to its end, with all that is still shown
finish() {
    local status=0
    exec 3>&-
    cat <&4 >>shown
    exec 4<&-
    wait "$office_id" || status=$?
    office_id=
    echo "exit $status" >>shown
}
