# shellcheck shell=sh
# What the tests of run-plan and run-sheet have in common: what a caller sees where nothing can be read, printed or built. Builds are tried in a copy
# with a stand-in for rt, so that nothing is proved again.
#
# It is sourced in the repository's folder, after these are set:
#   runner          run-plan or run-sheet
#   program         what it runs from target/bin
#   given, printed  a file with an input, and one with what is printed for it
#   long            a file with an input for which more is printed than a pipe holds
#   typed           how the command is typed
#   with_arguments  a function that runs a command with the arguments that go with `given`
# shellcheck disable=SC2154

here=$PWD
room=$(mktemp -d)
trap 'rm -rf "$room"' EXIT
out=$room/out
err=$room/err
copy="$room/a copy"

fail() {
    echo "$runner: $1" >&2
    head -n 60 "$out" | sed 's/^/  standard output: /' >&2
    sed 's/^/  standard error:  /' "$err" >&2
    exit 1
}

# answers NAME STATUS OUTPUT: the command that `status` and the two files are of answered so, and printed the file OUTPUT.
answers() {
    [ "$status" -eq "$2" ] || fail "$1: exit status $status, not $2"
    cmp -s "$out" "$3" || fail "$1: standard output is not $3"
}

# says NAME TEXT: standard error has this line and no other.
says() {
    printf '%s\n' "$2" | cmp -s - "$err" || fail "$1: standard error is not '$2'"
}

silent() {
    cmp -s "$err" /dev/null || fail "$1: standard error is not empty"
}

# run_on INPUT COMMAND: `status` and the two files are then those of the command.
run_on() {
    status=0
    printf '%b' "$1" | with_arguments "$2" >"$out" 2>"$err" || status=$?
}

# refused INPUT LINE SENTENCE: the sentence is the runner's, and the program by itself says nothing.
refused() {
    printf '%s\n' "$2" >"$room/line"
    run_on "$1" "./$runner"
    answers "$1" 1 "$room/line"
    says "$1" "$runner: $3"
    run_on "$1" "target/bin/$program"
    answers "$1, the program by itself" 0 "$room/line"
    silent "$1, the program by itself"
}

# ---- each refusal of a job line but 5, with its sentence

test_refusals() {
    unreadable='it must have 2 to 17 numbers up to 4,294,967,295, without sign or leading zero, one space between, a newline after the last and nothing behind it'
    lengths='after p and d the line must have d extents and d weights, and then d least thicknesses or none'
    refused '4 6 8 8 1 1\n' 'refused 1 0' 'the second number of the line, the number of dimensions d, must be 2 to 5'
    refused '4097 2 8 8 1 1\n' 'refused 2 0' 'the first number of the line, the processor count p, must be 1 to 4,096'
    refused '4 2 8 8 1\n' 'refused 3 0' "$lengths"
    refused '2 2 6 6 1 1 3\n' 'refused 3 0' "$lengths"
    refused '2 2 6 6 1 1 3 3 3\n' 'refused 3 0' "$lengths"
    refused '4 3 8 8 0 1 1 1\n' 'refused 4 3' 'the extent of dimension 3, number 5 of the line, must be 1 to 1,000,000'
    refused '2 2 6 6 1 1 3 0\n' 'refused 13 2' 'the least thickness of dimension 2 must be 1 or more'
    refused '4 2 8  8 1 1\n' 'refused 10 7' "the line stops being readable at byte 7: $unreadable"
    refused '2 5 9 9 9 9 9 1 1 1 1 1 1 1 1 1 1 1\n' 'refused 10 34' "the line stops being readable at byte 34: $unreadable"
    refused '' 'refused 10 1' "the line stops being readable at byte 1: $unreadable"
}

# ---- what cannot be printed or read

test_printing_and_reading() {
    status=0
    (head -c 8 "$given" && sleep 1 && tail -c +9 "$given") | with_arguments "./$runner" >"$out" 2>"$err" || status=$?
    answers 'a line in two parts' 0 "$printed"

    status=0
    with_arguments "./$runner" <"$given" >/dev/full 2>"$err" || status=$?
    : >"$out"
    answers 'a full device' 2 /dev/null
    says 'a full device' "$runner: the answer could not be printed in full"

    status=0
    with_arguments "./$runner" <"$given" >&- 2>"$err" || status=$?
    answers 'no standard output' 2 /dev/null
    says 'no standard output' "$runner: the answer could not be printed: standard output is closed"

    {
        status=0
        with_arguments "./$runner" <"$long" 2>"$err" || status=$?
        echo "$status" >"$room/status"
    } | true
    status=$(cat "$room/status")
    answers 'a reader that has left' 2 /dev/null
    says 'a reader that has left' "$runner: the answer could not be printed in full"

    # The limit is for a shell of its own, which has written nothing yet.
    status=0
    with_arguments sh -c 'ulimit -f 1; exec "$@"' sh "./$runner" <"$long" >"$room/cut" 2>"$err" || status=$?
    answers 'a limit on the size of files' 2 /dev/null
    says 'a limit on the size of files' "$runner: the answer could not be printed in full"

    status=0
    with_arguments "./$runner" <&- >"$out" 2>"$err" || status=$?
    answers 'no standard input' 2 /dev/null
    says 'no standard input' "$runner: the input could not be read: standard input is closed"

    status=0
    with_arguments "./$runner" <tests >"$out" 2>"$err" || status=$?
    answers 'a directory for an input' 2 /dev/null
    says 'a directory for an input' "$program: the input could not be read"

    # The program by itself ends with status 0, and says on standard error what failed.
    : >"$out"
    status=0
    with_arguments "target/bin/$program" <"$given" >/dev/full 2>"$err"
    says 'the program and a full device' "$program: the output could not be written in full"
    with_arguments "target/bin/$program" <&- >"$out" 2>"$err"
    answers 'the program without standard input' 0 /dev/null
    says 'the program without standard input' "$program: the input could not be read"
}

# same_without_standard_error INPUT STATUS OUTPUT: where standard error cannot be written, the exit status and the answer are the same.
same_without_standard_error() {
    : >"$err"
    status=0
    with_arguments "./$runner" <"$1" >"$out" 2>&- || status=$?
    answers "$1, no standard error" "$2" "$3"
    status=0
    with_arguments "./$runner" <"$1" >"$out" 2>/dev/full || status=$?
    answers "$1, standard error to a full device" "$2" "$3"
}

# ---- the usage, which is left in the file `usage` of the room

test_usage() {
    status=0
    "./$runner" -h >"$out" 2>"$err" || status=$?
    [ "$status" -eq 0 ] || fail "-h: exit status $status"
    case $(head -n 1 "$out") in
    "usage: $runner "*) ;;
    *) fail '-h: no usage' ;;
    esac
    [ "$(wc -l <"$out")" -le 24 ] || fail '-h: more than one screen'
    silent '-h'
    cp "$out" "$room/usage"

    status=0
    "./$runner" --help >"$out" 2>"$err" || status=$?
    answers '--help' 0 "$room/usage"
    silent '--help'

    : >"$out"
    status=0
    "./$runner" -h >/dev/full 2>"$err" || status=$?
    answers '-h to a full device' 2 /dev/null
    says '-h to a full device' "$runner: the usage could not be printed in full"
    status=0
    "./$runner" -h >&- 2>"$err" || status=$?
    answers '-h, no standard output' 2 /dev/null
    says '-h, no standard output' "$runner: the usage could not be printed in full"

    status=0
    "./$runner" --verbose <"$given" >"$out" 2>/dev/full || status=$?
    answers 'a wrong argument, standard error to a full device' 64 /dev/null
}

# wrong_arguments ARGUMENT..: nothing is read or printed, and the usage is on standard error.
wrong_arguments() {
    status=0
    "./$runner" "$@" <&- >"$out" 2>"$err" || status=$?
    answers "the arguments '$*'" 64 /dev/null
    cmp -s "$err" "$room/usage" || fail "the arguments '$*': no usage"
}

# ---- a terminal

test_terminal() {
    if command -v script >/dev/null 2>&1; then
        script -qec "$typed" /dev/null <"$given" >"$out" 2>"$err"
        grep -q "^$runner: waiting for a job line" "$out" || fail 'a terminal: nobody waits'
        grep -q "^$(head -n 1 "$printed")" "$out" || fail 'a terminal: no answer'
    fi
}

# ---- building, in a copy whose path has a space, from another directory

# in_copy COMMAND: with the arguments, and with the tools of the copy only.
in_copy() {
    # shellcheck disable=SC2123
    (PATH=$room/tools && with_arguments "$1")
}

# built NAME STATUS: one run in the copy; `runs` then counts the calls of rt.
built() {
    : >"$room/runs"
    status=0
    (cd / && in_copy "$copy/$runner") <"$given" >"$out" 2>"$err" || status=$?
    runs=$(wc -l <"$room/runs")
    [ "$status" -eq "$2" ] || fail "$1: exit status $status, not $2"
    if [ "$2" -eq 0 ]; then answers "$1" 0 "$printed"; else answers "$1" "$2" /dev/null; fi
}

# not_built NAME WHY
not_built() {
    built "$1" 3
    [ "$(tail -n 1 "$err")" = "$runner: the program cannot be built: $2" ] || fail "$1: the last line is not '$2'"
}

# tells NAME WHY: that a build begins, and why.
tells() {
    grep -qx "$runner: proving and building the program $program, $2; this takes some minutes" "$err" || fail "$1: not told '$2'"
}

test_building() {
    mkdir -p "$copy/crates/$program/src" "$copy/crates/$program/must-fail" "$room/tools"
    cp "$runner" "$copy/$runner"
    if [ -d commands ]; then cp -R commands "$copy/commands"; fi
    touch "$copy/crates.txt" "$copy/crates/$program/src/main.rt"
    for tool in sh dirname readlink find cat mkdir touch cp rm sleep; do
        ln -s "$(command -v "$tool")" "$room/tools/$tool"
    done

    built 'no toolchain' 3
    says 'no toolchain' "$runner: the program cannot be built: the Rattle toolchain is not on this machine (no command rt)"
    status=0
    in_copy "$copy/$runner" <"$given" >"$out" 2>&- || status=$?
    answers 'no toolchain, no standard error' 3 /dev/null
    status=0
    in_copy "$copy/$runner" <"$given" >"$out" 2>/dev/full || status=$?
    answers 'no toolchain, standard error to a full device' 3 /dev/null

    # The stand-in reads its standard input to the end, as a tool may, and does what the file `does` says.
    cat >"$room/tools/rt" <<END
#!/bin/sh
echo "\$* in \$PWD" >>'$room/runs'
cat >/dev/null
. '$room/does'
END
    chmod +x "$room/tools/rt"

    echo 'exit 1' >"$room/does"
    not_built 'a check that fails' 'the check failed'
    tells 'a check that fails' 'for the first time'
    echo 'exit 0' >"$room/does"
    not_built 'a check that builds nothing' 'the check failed'
    rm -r "$copy/target"
    touch "$copy/target"
    not_built 'a file in place of target' "$copy/target/$runner-began cannot be written"
    rm "$copy/target"
    mkdir "$copy/target"
    ln -s "$room/nowhere/file" "$copy/target/$runner-began"
    not_built 'a time that cannot be kept' "$copy/target/$runner-began cannot be written"
    rm -r "$copy/target"
    makes="mkdir -p out && cp '$here/target/bin/$program' out/$program"
    echo "$makes && rm ../../target/$runner-began" >"$room/does"
    not_built 'a time that is lost' "$copy/target/bin/$program cannot be given the time of $copy/target/$runner-began"
    rm -r "$copy/target"

    echo "$makes" >"$room/does"
    mkdir "$copy/target"
    touch "$copy/target/bin"
    not_built 'a file in place of the folder bin' "$copy/target/bin/$program cannot be written"
    rm -r "$copy/target" "$copy/crates/$program/out"

    echo "echo progress >&2; echo the program prints; $makes" >"$room/does"
    built 'the first run' 0
    [ "$(cat "$room/runs")" = "run in $copy/crates/$program" ] || fail 'the first run: rt was called otherwise'
    tells 'the first run' 'for the first time'
    grep -q '^progress$' "$err" || fail 'the first run: what rt says is lost'
    if grep -q '^the program prints$' "$err"; then fail 'the first run: what the program prints while it is built is not dropped'; fi
    built 'the second run' 0
    [ "$runs" -eq 0 ] || fail 'the second run: built again'
    silent 'the second run'

    # A build where standard error is closed: what the tool says is dropped.
    rm -r "$copy/target"
    status=0
    in_copy "$copy/$runner" <"$given" >"$out" 2>&- || status=$?
    answers 'the first run, no standard error' 0 "$printed"
}

# ---- by a symbolic link, to the script and to a link; and with a search path for cd, which has a folder of the same name

test_links() {
    mkdir "$room/links"
    ln -s "$copy/$runner" "$room/links/absolute"
    ln -s "../a copy/$runner" "$room/links/relative"
    ln -s relative "$room/links/second"
    for link in absolute relative second; do
        status=0
        (cd "$room/links" && in_copy "./$link") <"$given" >"$out" 2>"$err" || status=$?
        answers "the link $link" 0 "$printed"
        silent "the link $link"
        status=0
        (cd / && PATH=$room/links:$room/tools && with_arguments "$link") <"$given" >"$out" 2>"$err" || status=$?
        answers "the link $link on the path" 0 "$printed"
        silent "the link $link on the path"
    done

    mkdir -p "$room/elsewhere/a copy"
    status=0
    (cd "$room" && CDPATH=$room/elsewhere && export CDPATH && in_copy "a copy/$runner") <"$given" >"$out" 2>"$err" || status=$?
    answers 'with CDPATH' 0 "$printed"
    silent 'with CDPATH'
}

# ---- a program that is ended by a signal, and one that fails, after a part of the answer

test_failing_programs() {
    # shellcheck disable=SC2016
    for end in 'kill -9 $$' 'exit 1'; do
        printf '#!/bin/sh\necho cuts\n%s\n' "$end" >"$copy/target/bin/$program"
        built "a program with $end" 2
        [ "$(tail -n 1 "$err")" = "$runner: the program did not run to its end" ] || fail "a program with $end: no word of it"
    done
    cp "$here/target/bin/$program" "$copy/target/bin/$program"
}

# ---- what is newer than the program

test_changes() {
    for source in crates.txt "crates/$program/src/main.rt"; do
        find "$copy" -exec touch -t 200001020000 {} +
        touch -t 200001030000 "$copy/$source"
        built "a newer $source" 0
        [ "$runs" -eq 1 ] || fail "a newer $source: not built again"
        tells "a newer $source" 'since its sources are newer'
    done
    find "$copy" -exec touch -t 200001020000 {} +
    touch "$copy/crates/$program/must-fail"
    built 'a newer must-fail edit' 0
    [ "$runs" -eq 0 ] || fail 'a newer must-fail edit: built again'

    # A program is not taken for current where its sources cannot be searched.
    unknown='its sources cannot be searched for changes'
    mv "$room/tools/find" "$room/find"
    not_built 'no command find' "$unknown"
    printf '#!/bin/sh\nexit 1\n' >"$room/tools/find"
    chmod +x "$room/tools/find"
    not_built 'a find that fails' "$unknown"
    mv "$room/find" "$room/tools/find"
    mv "$copy/crates" "$room/crates"
    not_built 'no sources' "$unknown"
    mv "$room/crates" "$copy/crates"

    # A check that leaves the program as it was, as after a change of a crate that it does not use, is not made again and again.
    mkdir -p "$copy/crates/chains/src"
    touch "$copy/crates/chains/src/lib.rt"
    echo 'exit 0' >"$room/does"
    built 'a check that changes nothing' 0
    [ "$runs" -eq 1 ] || fail 'a check that changes nothing: not made'
    built 'the run after it' 0
    [ "$runs" -eq 0 ] || fail 'the run after a check that changes nothing: checked again'
    silent 'the run after a check that changes nothing'

    # A change during the check is seen by the next run.
    echo 'sleep 1; touch ../../crates.txt' >"$room/does"
    touch "$copy/crates.txt"
    built 'a change during the check' 0
    built 'the run after a change during the check' 0
    [ "$runs" -eq 1 ] || fail 'a change during the check: lost'
}
