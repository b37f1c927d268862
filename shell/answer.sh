# What ./report and ./courses share: each has a program read a route from FILE or from standard input, and prints its answer. The program is
# proved and built first where that is needed. Nothing but its answer goes to standard output.
#
# A script says its `name`, the `program`, what this `prints` and for an `example`; the shape of the answers to what is `accepted`, a pattern with
# N for a number, a space for a tab and ; for a line end; and where the checkout is, the `desk`.
set -u
# the next file that is opened would take the number of a standard error that is closed
true 3>&2 || exec 2>/dev/null

help="usage: $name [FILE]

Reads a route from FILE, or from standard input where FILE is - or is left out. Prints
$prints;
or, where the route is refused, the number of the refusal and the line.

Status: 0 for a route, 1 for a refusal, 2 where there is no answer; standard error then says why.

    \$ printf 'route\tpoint\np\t0\t0\np\t0\t90\n' | ./$name
$example"

say() { printf '%s: %s\n' "$name" "$*" >&2; }
fail() {
    say "$@"
    exit 2
}
print() {
    trap '' PIPE # where nobody reads any more, the status is to say so too
    printf '%s' "$1" 2>/dev/null || fail 'standard output cannot be written'
}

[ $# -le 1 ] || fail "one FILE at most ($name --help says more)"
case ${1--} in
--help)
    print "$help
"
    exit
    ;;
-) { true 3<&0; } 2>/dev/null || fail 'standard input is closed' ;;
*)
    [ -e "$1" ] || fail "$1: no such file"
    [ ! -d "$1" ] || fail "$1: a folder, and no file"
    { command exec <"$1"; } 2>/dev/null || fail "$1: cannot be read"
    ;;
esac
command -v rt >/dev/null || fail 'rt is not on the PATH (it comes with the Rattle kit)'
cd "$desk" || exit 2
built=crates/$program/out/$program

# Whether the program is there, and nothing that is proved is newer.
current() { [ -f "$built" ] && [ -z "$(find crates.txt crates/*/src crates/*/specs crates/*/proofs -newer "$built" 2>/dev/null)" ]; }

# Whether rt can write to each crate's out/ and to what an earlier call has left in it.
writable() {
    for crate in crates/*; do
        [ -e "$crate/out" ] || [ -w "$crate" ] || return
        for path in "$crate"/out "$crate"/out/* "$crate"/out/*/*; do
            [ ! -e "$path" ] || [ -w "$path" ] || return
        done
    done
}

# Proves and builds what has changed since it was last proved, by a run on no text, whose answer is not wanted. Whoever works below out/ locks
# crates.txt, where there is a command for that: the gate puts aside what stands there. What is built and up to date need not wait. What rt ci
# has built has no stamp by which rt run could tell that nothing has changed; it is proved once more.
update() {
    if command -v flock >/dev/null && ! flock -n 9; then
        ! current || return 0
        say 'another command works in this checkout: waiting for it'
        flock 9
    fi
    if ! writable; then
        [ -f "$built" ] || fail "$program is not built, and this checkout cannot be written"
        current || say "$program is older than its sources, and this checkout cannot be written: running it as it is"
        return 0
    fi
    current || say "proving and building $program; the first time this takes some minutes"
    said=$(cd "crates/$program" && rt run </dev/null 2>&1) || {
        printf '%s\n' "$said" >&2
        fail "$program is not proved"
    }
    [ -f "$built" ] || fail "rt run left no $built; remove the folder crates/$program/out and try again"
    touch "$built" # what is older than this has been proved: there is nothing to say next time
}
update 9<crates.txt || exit 2

# programs are for x86-64; a kit for another kind of machine would bring an emulator
tools=$(dirname "$(rt doc)")/toolchain
emulator=$tools/bin/qemu-x86_64
[ -x "$emulator" ] || emulator=
run() { ${emulator:+"$emulator"} "$tools/lib/ld-linux-x86-64.so.2" --library-path "$tools/lib" "$built"; }

# The programs end with status 0 also where they cannot read or print, and say so on standard error, in a line that begins with their name. What one
# has printed is then no answer, and nothing at all may be one. The last byte keeps the line ends before it, which the shell would drop.
answer=$(
    exec 3>&1
    said=$(run 2>&1 >&3 3>&-)
    status=$?
    [ -z "$said" ] || printf '%s\n' "$said" >&2
    [ "$status" -eq 0 ] || fail "$program ended with status $status"
    ! printf '%s\n' "$said" | grep -q "^$program: " || fail "$program gave no answer"
    printf .
) || exit 2
answer=${answer%.}

# an answer is known by its shape too; no other byte looks like one of the three that stand for others in it
shape=$(printf '%s' "$answer" | tr 'N ;\t\n' 'xxx ;' | sed 's/[0-9][0-9]*/N/g')
shaped() { printf '%s\n' "$shape" | grep -Eqx "$1"; }
if shaped "$accepted"; then
    status=0
elif shaped 'refused N N;'; then
    status=1
else
    fail "$program gave no answer"
fi
# printed from here, so that an answer that cannot be written is a failure too
print "$answer"
exit "$status"
