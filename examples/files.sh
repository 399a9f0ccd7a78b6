#!/usr/bin/env bash
# Plays import files that say whose keying they are, and files that must be the one of a digest: the files of two batches swapped, one
# clerk's file for both, and a file that was written over since its digest was noted.
# shellcheck source=examples/play.bash
source "$(dirname "$(readlink -f "${BASH_SOURCE[0]}")")/play.bash"

# Makes a file in the folder that the orders are played in, a line for each word.
file() {
    printf '%s\n' "${@:2}" >"$folder/$1"
}

digest() {
    sha256sum "$folder/$1" | cut -d ' ' -f 1
}

file names.csv ward,candidate,name 7,1,Ann 7,2,Bob 7,3,Cy
file k4-12.csv 'paper 12/4,1,2,3' 1,1,2, 2,,1,
file k9-12.csv 'paper 12/9,1,2,3' 1,1,2, 2,,1,
file k4-13.csv 'paper 13/4,1,2,3' 1,,,1 2,1,,
file k9-13.csv 'paper 13/9,1,2,3' 1,,,1 2,1,,
file zero.csv 'paper 12/04,1,2,3' 1,1,2, 2,,1,
file columns.csv 'paper 13/9,1,2' 1,1,2 2,,1
noted=$(digest k9-13.csv)

{
    play town.db init
    play town.db ward 7 2 Harbour --id w1
    play town.db import-candidates names.csv --id c --sha256 "$noted"
    play town.db import-candidates names.csv --id c --sha256 "$(digest names.csv)"
    play town.db close 7 --id n1
    play town.db batch 12 7 2 4 9 --id b1
    play town.db batch 13 7 2 4 9 --id b2

    # the files of two batches swapped, one clerk's file for both, a header that is none, and the file of a batch of another ward
    play town.db import-keying 4 12 1 k4-13.csv --id k1
    play town.db import-keying 9 12 1 k4-12.csv --id k1
    play town.db import-keying 4 12 1 zero.csv --id k1
    play town.db import-keying 4 12 1 columns.csv --id k1
    play town.db import-keying 4 12 1 k4-12.csv --id k1
    play town.db import-keying 9 12 1 k9-12.csv --id k1
    play town.db import-keying 4 13 1 k4-13.csv --id k2

    # a file that was written over since its digest was noted, alone and in a script; and put right, by a digest in capital letters
    file k9-13.csv 'paper 13/9,1,2,3' 1,,1, 2,1,,
    play town.db import-keying 9 13 1 k9-13.csv --id k2 --sha256 "$noted"
    file evening.txt "import-keying 9 13 1 k9-13.csv --id k2 --sha256 $noted"
    play town.db replay evening.txt
    file k9-13.csv 'paper 13/9,1,2,3' 1,,,1 2,1,,
    play town.db replay evening.txt
    play town.db import-keying 9 13 1 k9-13.csv --id k2 --sha256 "${noted^^}"
    play town.db import-keying 9 13 1 missing.csv --id k2 --sha256 "$noted"
    play town.db batches 7

    # words that are no digest
    play town.db import-keying 9 13 1 k9-13.csv --id k2 --sha256 "${noted:1}"
    play town.db import-keying 9 13 1 k9-13.csv --id k2 --sha256 "${noted:1}g"
    play town.db import-keying 9 13 1 k9-13.csv --id k2 --sha256
    file evening.txt "import-keying 9 13 1 k9-13.csv --id k2 --sha256 k9-13.csv"
    play town.db replay evening.txt
} >"$folder/played"

compare files
