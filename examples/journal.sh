#!/usr/bin/env bash
# Plays an evening that is put right from its journal alone. A pile of papers was given out twice, a verdict was mistyped, and the tellers
# wrote their files over. Then names that look like words of a script, and journals that were cut, doubled and mixed up.
# shellcheck source=examples/play.bash
source "$(dirname "$(readlink -f "${BASH_SOURCE[0]}")")/play.bash"

# The tellers 4 and 9 key a batch, both from the one file that each has; it is written over each time.
key_batch() {
    local batch=$1 id=$2
    shift 2
    printf '%s\n' "$@" | tee "$folder/clerk4.csv" >"$folder/clerk9.csv"
    play town.db import-keying 4 "$batch" 1 clerk4.csv --id "$id"
    play town.db import-keying 9 "$batch" 1 clerk9.csv --id "$id"
}

# Keeps the journal of an office in a file.
keep_journal() {
    (cd "$folder" && "$office" "$1" journal) >"$folder/$2"
}

# The office, whose output has no room.
mute_office() {
    "$launcher" "$@" >/dev/full
}

# Shows which orders differ between a text and the journal of an office, as the guide has it.
tell_beside() {
    echo "$1 beside the journal of $2:"
    (cd "$folder" && "$office" "$2" journal | diff -B -I '^#' "$1" -) || true
}

# Shows what differs between two files.
tell_changes() {
    echo "changes:"
    (cd "$folder" && diff "$1" "$2") || true
}

printf '%s\n' ward,candidate,name 7,1,Ann 7,2,Bob 7,3,Cy 7,4,Dee >"$folder/names.csv"

{
    play town.db init
    play town.db ward 7 2 Harbour --id w1
    play town.db import-candidates names.csv --id c
    play town.db withdraw 7 4 --id x1
    play town.db close 7 --id n1
    play town.db batch 12 7 4 4 9 --id b1
    key_batch 12 k1 paper,1,2,3 1,1,2, 2,1,2, 3,,1, 4,D,,
    play town.db batch 13 7 3 4 9 --id b2
    key_batch 13 k2 paper,1,2,3 1,,,1 2,,,1 3,1,,
    # the papers of batch 12 once more
    play town.db batch 14 7 4 4 9 --id b3
    key_batch 14 k3 paper,1,2,3 1,1,2, 2,1,2, 3,,1, 4,D,,
    # paper 4 was accepted for Cy, and is typed as rejected
    play town.db judge 12 4 reject:5 --id v1
    play town.db judge 14 4 reject:5 --id v2
    play town.db seal 7 --id s1
    play town.db advance 7 --id a1
    play town.db advance 7 --id a2
    play town.db advance 7 --id a3
    play town.db declare 7 --id d1

    # the journal needs no other file
    rm "$folder"/*.csv
    play town.db journal
    keep_journal town.db evening.txt

    # where the output has no room, and in a script
    office=mute_office play town.db journal
    echo journal >"$folder/script.txt"
    play town.db replay script.txt

    # unmended it makes the very same office
    play same.db init
    play same.db replay evening.txt
    keep_journal same.db same.txt
    tell_changes evening.txt same.txt

    # mended: the verdict is another, batch 14 is gone, and the ward is counted anew
    sed -e 's/^judge 12 4 reject:5 /judge 12 4 accept:,,1 /' -e '/^# batch 14 /,/^$/d' -e '/^# ward 7, Harbour: count$/,/^$/d' \
        "$folder/evening.txt" >"$folder/mended.txt"
    tell_changes evening.txt mended.txt
    play new.db init
    play new.db replay mended.txt
    tell_beside mended.txt new.db
    # over a file that was played before it does nothing, with status 0; what was mended isn't there
    play town.db replay mended.txt
    tell_beside mended.txt town.db
    play town.db wards
    play new.db wards
    play new.db seal 7 --id s1
    play new.db advance 7 --id a1
    play new.db advance 7 --id a2
    play new.db declare 7 --id d1
    play new.db wards

    # a line that is gone takes with it what rests on it: printed line by line, or all at once by a script that keeps going
    grep -v '^batch 13 ' "$folder/evening.txt" >"$folder/without.txt"
    play less.db init
    play less.db replay without.txt
    play less.db replay without.txt --keep-going
    play less.db wards

    # sent twice it does nothing twice; cut or mixed up it ends at a line
    cat "$folder/evening.txt" "$folder/evening.txt" >"$folder/twice.txt"
    play twice.db init
    play twice.db replay twice.txt
    keep_journal twice.db same.txt
    tell_changes evening.txt same.txt
    sed '/^key 9 13 /{s/ [^ ]*$//;q}' "$folder/evening.txt" >"$folder/cut.txt"
    play cut.db init
    play cut.db replay cut.txt
    tac "$folder/evening.txt" >"$folder/backwards.txt"
    play backwards.db init
    play backwards.db replay backwards.txt

    # names and ids that look like words of a script
    play odd.db init
    play odd.db ward --id=--help -- 1 1 "--id 'x' \"y\""
    play odd.db candidate 1 1 '# "no" comment' --id=-
    play odd.db candidate 1 2 "'" --id=--
    play odd.db withdraw 1 2 --id=--id
    play odd.db candidate --id=-h -- 1 2 --
    play odd.db candidate --id 7 -- 1 3 -1
    play odd.db close 1 --id n
    play odd.db batch 1 1 1 1 999 --id b
    play odd.db journal
    keep_journal odd.db odd.txt
    play odder.db init
    play odder.db replay odd.txt
    keep_journal odder.db odder.txt
    tell_changes odd.txt odder.txt
} >"$folder/played"

compare journal
