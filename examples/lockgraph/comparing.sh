# What examples/lockgraph/check and its parts share. Each reads it at the top of the tree, with its name in `part`, and
# in `words_before` the words that each call of lockgraph begins with. `in` is a stream, `out` an answer, `err` a text on
# standard error, and `wanted` what is to be written.
# shellcheck shell=sh disable=SC2034,SC2086,SC2154 # Some of these are for the parts, and `words_before` may be several.
here=examples/lockgraph
# What is said of a file without a trace, and of a line that begins as a header. `bad_header TEXT` quotes its text.
no_trace_text='NoTrace: no line "trace LABEL": nothing was recorded, or the file is empty'
bad_header() { printf 'BadHeader: a header is "trace LABEL", with one label of 1 to 64 bytes from ! to ~: "%s"' "$1"; }
failed=0
in=$(mktemp)
out=$(mktemp)
err=$(mktemp)
wanted=$(mktemp)
trap 'rm -f "$in" "$out" "$err" "$wanted"' EXIT
fails() {
    printf '%s/%s: %s\n' "$here" "$part" "$1" >&2
    failed=1
}
# `gives STATUS FILE WORD ..`: that lockgraph with these words writes just this file. It reads `in`.
gives() {
    want=$1
    text=$2
    shift 2
    ./lockgraph ${words_before:-} "$@" <"$in" >"$out" 2>"$err"
    status=$?
    [ $status -eq "$want" ] || fails "$*: status $status, not $want"
    cmp -s "$out" "$text" || fails "$*: it writes another text than $text"
    [ -s "$err" ] && fails "$*: there is a text on standard error"
}
# `refuses TEXT WORD ..`: that there is no answer, and why.
refuses() {
    text=$1
    shift
    ./lockgraph ${words_before:-} "$@" <"$in" >"$out" 2>"$err"
    status=$?
    [ $status -eq 2 ] || fails "$*: status $status, not 2"
    printf 'lockgraph: %s\n' "$text" | cmp -s - "$err" || fails "$*: another text than '$text'"
    [ -s "$out" ] && fails "$*: there is an answer"
}
# `refuses_words WORD ..`: words that aren't taken.
refuses_words() {
    ./lockgraph "$@" </dev/null >"$out" 2>"$err"
    [ $? -eq 2 ] || fails "words '$*': status 2 is missing"
    [ -s "$out" ] && fails "words '$*': there is an answer"
    grep -q '^error: ' "$err" || fails "words '$*': nothing says why"
}
