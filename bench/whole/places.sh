# For bench/run and bench/beside. Where a loop lies in memory can make a tenth of a call's time, and functions begin at multiples of 16 bytes.
# link_at_each WORK OBJECT..: links WORK/race.o and the objects to WORK/race.16, .32, .48 and .64, so that all of them come to each place of 64 bytes
link_at_each() {
    local work=$1 shift
    for shift in 16 32 48 64; do
        printf '.text\n.skip %d, 0x90\n.section .note.GNU-stack,"",@progbits\n' $shift | gcc -x assembler -c -o "$work/shift.o" -
        gcc -o "$work/race.$shift" "$work/race.o" "$work/shift.o" "${@:2}"
    done
}
# race_at_each WORK ROUNDS DIR SHEET..: what each of them prints
race_at_each() {
    local race
    for race in "$1"/race.*[0-9]; do "$race" "${@:2}" || return 1; done
}
