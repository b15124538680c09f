#!/bin/sh
# Shows that the tests in C can fail: each header here is wrong in a name, a type or a formula, and one of the tests must fail or not compile.
# Arguments: the archive that the tests link, and the words that they are compiled with.
set -eu
cd "$(dirname "$0")/../.."
archive=$1
shift
header=include/multipartition.h
folder=$(mktemp -d)
trap 'rm -rf "$folder"' EXIT
printf '%s\n' "$@" >"$folder/words"
tried=0

# Do all tests compile and pass with the header in the folder?
pass() {
    for program in places refusals stack; do
        cc "@$folder/words" -O0 -I"$folder" "tests/c/$program.c" "$archive" -o "$folder/$program" >"$folder/log" 2>&1 || return 1
        # A shell of its own, which tells the log of a program that the machine stopped.
        LD_BIND_NOT=1 sh -c 'ulimit -c 0; "$1"; exit $?' sh "$folder/$program" >"$folder/log" 2>&1 || return 1
    done
}

# The header changed by this sed script must not pass.
wrong() { # WHAT SCRIPT
    sed "$2" "$header" >"$folder/multipartition.h"
    if cmp -s "$header" "$folder/multipartition.h"; then
        echo "wrong_headers: the header has no such line: $1" >&2
        exit 1
    fi
    if pass; then
        echo "wrong_headers: the tests in C pass with a wrong header: $1" >&2
        exit 1
    fi
    tried=$((tried + 1))
}

number_of() { # NAME
    sed -n "s/^ *MULTIPARTITION_$1 = \([0-9]*\).*/\1/p" "$header"
}

set_to() { # NAME NUMBER
    wrong "$1 = $2" "s/\(MULTIPARTITION_$1 =\) [0-9]*/\1 $2/"
}

swap() { # NAME NAME
    if [ -z "$(number_of "$1")" ] || [ -z "$(number_of "$2")" ]; then
        echo "wrong_headers: the header does not have both names: $1 $2" >&2
        exit 1
    fi
    wrong "$1 and $2 swapped" "s/\(MULTIPARTITION_$1 =\) [0-9]*/\1 $(number_of "$2")/; s/\(MULTIPARTITION_$2 =\) [0-9]*/\1 $(number_of "$1")/"
}

cp "$header" "$folder"
if ! pass; then
    cat "$folder/log"
    exit 1
fi

for name in $(sed -n 's/^ *MULTIPARTITION_\([A-Z_]*\) = [0-9].*/\1/p' "$header"); do
    number=$(number_of "$name")
    case $name in
    *_STACK) set_to "$name" $((number / 64)) ;;
    *)
        set_to "$name" $((number + 1))
        if [ "$number" -gt 0 ]; then
            set_to "$name" $((number - 1))
        fi
        ;;
    esac
done

swap DIMENSIONS PROCESSORS
swap EXTENTS WEIGHTS
swap WEIGHTS CUTS
swap CUTS MODULI
swap COST_LOW COST_HIGH
swap COST_HIGH KIND
swap MATRIX KIND
swap KIND PLAN_LENGTH
swap EXTENTS LEAST
swap CUTS LEAST
swap KIND LEAST
swap LEAST PLAN_LENGTH
swap KIND_PLANNED KIND_DIAGONAL
swap SMALLEST_REFUSED_FOUND SMALLEST_REFUSED
swap SMALLEST_REFUSED SMALLEST_REFUSED_LENGTH
swap HYPERCUBE_OWNER HYPERCUBE_OWNER_LENGTH
swap NEIGHBOUR_FOUND NEIGHBOUR
swap SLAB_FIRST SLAB_AFTER
swap STEP_INSIDE STEP_POSITION
swap TIMETABLE_SLAB TIMETABLE_TILES
swap TIMETABLE_SENDS TIMETABLE_RECEIVES
swap TIMETABLE_SENDS TIMETABLE_SEND_TO
swap TIMETABLE_SEND_TO TIMETABLE_RECEIVE_FROM
swap TIMETABLE_SEND_LENGTH TIMETABLE_RECEIVE_LENGTH
swap TIMETABLE_RECEIVE_FROM TIMETABLE_RECEIVE_LENGTH
swap SHEET_LINES SHEET_COLUMNS
swap SHEET_LINES SHEET_CAPTION
swap SHEET_COLUMNS SHEET_CAPTION
swap SHEET_COLUMNS SHEET_LENGTH
swap BAD_DIMENSIONS BAD_PROCESSORS
swap BAD_PROCESSORS UNSUITED
swap UNSUITED BAD_JOB_LENGTH
swap UNSUITED OTHER_EXTENTS
swap UNSUITED OUT_OF_RANGE
swap BAD_JOB_LENGTH BAD_ANSWER_LENGTH
swap BAD_EXTENT NO_CUTS
swap BAD_EXTENT BAD_THICKNESS
swap BAD_THICKNESS NO_CUTS
swap BAD_THICKNESS UNSUITED
swap BAD_DIMENSION OUT_OF_RANGE
swap OUT_OF_RANGE OTHER_EXTENTS
swap OUT_OF_RANGE NOT_RISING
swap BAD_ANSWER_LENGTH NOT_RISING
swap BAD_THICKNESS NOT_RISING
wrong 'a step has one place more' 's/\(STEP_LENGTH(dimensions)\) (/\1 (1 + /'
wrong 'number from the upper half' 's/returned & UINT32_MAX/returned >> 32/'
wrong 'place from the lower half' 's/returned >> 32/returned/'
wrong 'place from two bits' 's/(uint32_t)(returned >> 32)/(uint32_t)(returned >> 32 \& 3)/'
wrong 'place from sixteen bits' 's/(uint32_t)(returned >> 32)/(uint32_t)(returned >> 32 \& 65535)/'
wrong 'the sum of a step without parentheses' 's/\(STEP_LENGTH(dimensions)\) (\(.*\))$/\1 \2/'
wrong 'the dimensions of a step without parentheses' 's/STEP_POSITION + (dimensions)/STEP_POSITION + dimensions/'
wrong 'a step always has six places' 's/STEP_POSITION + (dimensions)/STEP_POSITION + 0 * (dimensions) + 5/'
wrong 'answer lengths of 32 bits' 's/size_t answer_length/uint32_t answer_length/'
wrong 'plan lengths with a sign' 's/size_t plan_length/int plan_length/'
wrong 'lengths of least thicknesses of 32 bits' 's/size_t least_length/uint32_t least_length/'
wrong 'lengths of elements of 32 bits' 's/size_t elements_length/uint32_t elements_length/'
wrong 'lengths of slabs with a sign' 's/size_t slabs_length/int slabs_length/'
wrong 'no length of elements' 's/const uint32_t \*elements, size_t elements_length/const uint32_t *elements/'
wrong 'elements that may be written' 's/const \(uint32_t \*elements\)/\1/'
wrong 'slabs that may not be written' 's/\(uint32_t \*slabs\)/const \1/'
wrong 'slabs before elements' 's/const \(uint32_t \*\)elements/\1slabs/; t; s/\(uint32_t \*\)slabs/const \1elements/'
wrong 'lengths of captions of 32 bits' 's/size_t caption_length/uint32_t caption_length/'
wrong 'lengths of sheets with a sign' 's/size_t sheet_length/int sheet_length/'
wrong 'no length of captions' 's/const uint8_t \*caption, size_t caption_length/const uint8_t *caption/'
wrong 'captions that may be written' 's/const \(uint8_t \*caption\)/\1/'
wrong 'sheets that may not be written' 's/\(uint8_t \*sheet\)/const \1/'
wrong 'captions of 32-bit numbers' 's/uint8_t \(\*caption\)/uint32_t \1/'
wrong 'sheets of 32-bit numbers' 's/uint8_t \(\*sheet\)/uint32_t \1/'
wrong 'sheets before captions' 's/const \(uint8_t \*\)caption/\1sheet/; t; s/\(uint8_t \*\)sheet/const \1caption/'
wrong 'pages of 64 bits' 's/uint32_t page/uint64_t page/'
wrong 'no least thicknesses' '/size_t least_length,$/d'
wrong 'processors of the diagonal layout of 64 bits' 's/\(multipartition_diagonal(\)uint32_t/\1uint64_t/'
wrong 'processors of the smallest refused of 64 bits' 's/\(multipartition_smallest_refused(\)uint32_t/\1uint64_t/'
wrong 'processors of the hypercube of 64 bits' 's/\(multipartition_hypercube_owner(\)uint32_t/\1uint64_t/'
for call in plan smallest_refused diagonal owner hypercube_owner neighbour slab slab_of slabs_of slab_sheet tile_number tile_position step timetable \
    chains; do
    wrong "$call returns 32 bits" "s/^uint64_t \(multipartition_$call(\)/uint32_t \1/"
done

echo "$tried wrong headers are found"
