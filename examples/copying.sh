#!/usr/bin/env bash
# Plays copies of an office, and what isn't copied.
# shellcheck source=examples/play.bash
source "$(dirname "$(readlink -f "${BASH_SOURCE[0]}")")/play.bash"

mkdir "$folder/attic"
ln -s nothing "$folder/link.db"
printf 'ward,candidate,name\n7,1,Ann\n7,2,Bob\n7,3,Cy\n' >"$folder/names.csv"
printf 'paper,1,2,3\n1,1,2,\n2,,1,\n' >"$folder/four.csv"

# The office, with a limit of 20480 bytes for each file.
cramped_office() {
    (ulimit -f 20 && "$launcher" "$@")
}

# The office, whose output has no room.
mute_office() {
    "$launcher" "$@" >/dev/full
}

# Shows which files there are.
list_files() {
    echo "files: $(ls -x "$folder" --ignore=output --ignore=errors --ignore=played)"
}

{
    play town.db init
    play town.db ward 7 2 Harbour --id w1
    play town.db import-candidates names.csv --id c1
    play town.db close 7 --id n1
    play town.db batch 12 7 2 4 9 --id b1
    play town.db import-keying 4 12 1 four.csv --id k1

    # onto a file that is there, a folder, a link to nothing, the office itself and its log
    play town.db copy names.csv
    play town.db copy attic
    play town.db copy link.db
    play town.db copy town.db
    # the name of a log, a folder that isn't there, and a file as a folder
    play town.db copy town.db-wal
    play town.db copy town.db-journal
    play town.db copy missing/evening.db
    play town.db copy names.csv/evening.db
    list_files

    # if there is no room, nothing is left
    office=cramped_office play town.db copy evening.db
    list_files

    # where the reply can't be printed, the copy stands
    office=mute_office play town.db copy noon.db
    play noon.db receipts 4

    # a copy stands alone, is its owner's alone as the office is, and takes no second one
    play town.db copy evening.db
    echo "rights: $(stat -c %a "$folder/town.db" "$folder/evening.db" | paste -sd ' ')"
    play town.db copy evening.db
    rm -f "$folder/evening.db-wal"
    play evening.db wards
    play evening.db batches 7
    play evening.db receipts 4
    play evening.db import-keying 9 12 1 four.csv --id k1
    play town.db batches 7

    # a log that was left alone isn't taken for the copy's
    : >"$folder/attic/noon.db-wal"
    play town.db copy attic/noon.db
    rm "$folder/attic/noon.db-wal"
    play town.db copy attic/noon.db

    # what is no office isn't copied
    play names.csv copy morning.db
    play missing.db copy morning.db
    list_files
} >"$folder/played"

compare copying
