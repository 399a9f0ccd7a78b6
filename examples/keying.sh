#!/usr/bin/env bash
# Plays a ward from its nominations to its agreed papers: candidates from a file, three batches keyed by two clerks each, one of
# them keyed again and one by a third clerk too, and a verdict on a doubtful paper.
# shellcheck source=examples/play.bash
source "$(dirname "$(readlink -f "${BASH_SOURCE[0]}")")/play.bash"

# Makes a file in the folder that the orders are played in, a line for each word.
file() {
    printf '%s\n' "${@:2}" >"$folder/$1"
}

file candidates.csv ward,candidate,name 7,1,Ann '7,2,"Bob, jr"' 7,3,Cy
file twelve.csv paper,1,2,3 1,1,2, 2,D,,
file other.csv paper,1,2,3 1,2,1, 2,D,,
file short.csv paper,1,2,3 1,1,2,
file thirteen.csv paper,1,2,3 1,,1, 2,3,2,1 3,1,,
file unlike.csv paper,1,2,3 1,,1, 2,3,2,1 3,1,2,
file bad.csv paper,1,2,3 1,,1, 2,3,2,100 3,1,,
printf 'paper,1,2,3\n1,1,2,\n2,D' >"$folder/cut.csv"
# what a spreadsheet may have done: semicolons, spaces, UTF-16, and a row of commas after the last paper
file semicolons.csv 'paper;1;2;3' '1;1;2;' '2;D;;'
file spaces.csv 'paper, 1, 2, 3' '1, 1, 2,' '2, D,,'
printf '\377\376p\0a\0p\0e\0r\0,\0001\0\n\0' >"$folder/utf-16.csv"
file commas.csv paper,1,2,3 1,1,2, 2,D,, ,,,
# shellcheck disable=SC2046 # each record is a word
file many.csv paper,1,2,3 $(printf '%s,1,, ' {1..500}) ,,,

{
    play town.db init
    play town.db ward 7 2 Harbour --id w1
    play town.db import-candidates candidates.csv --id c
    play town.db import-candidates candidates.csv --id c
    play town.db status 7
    play town.db batch 12 7 2 4 9 --id b1
    play town.db close 7 --id n1
    play town.db batch 12 7 2 4 4 --id b1
    play town.db batch 12 7 2 4 9 --id b1
    play town.db batch 13 7 3 9 4 --id b2
    play town.db batch 13 7 3 9 4 --id b3
    play town.db status 7

    # batch 12: keyed alike by both clerks, and its doubtful paper judged
    play town.db import-keying 4 12 1 missing.csv --id k1
    play town.db import-keying 4 12 1 . --id k1
    play town.db import-keying 4 12 1 cut.csv --id k1
    for saved in semicolons spaces utf-16 commas many; do play town.db import-keying 4 12 1 "$saved.csv" --id k1; done
    play town.db import-keying 4 12 1 short.csv --id k1
    play town.db import-keying 5 12 1 twelve.csv --id k1
    play town.db import-keying 4 12 1 twelve.csv --id k1
    play town.db import-keying 4 12 1 twelve.csv --id k1
    play town.db import-keying 4 12 1 other.csv --id k2
    play town.db judge 12 2 reject:3 --id j1
    play town.db import-keying 9 12 1 twelve.csv --id k1
    play town.db status 7
    play town.db judge 12 1 reject:3 --id j1
    play town.db judge 12 2 maybe --id j1
    play town.db judge 12 2 reject:6 --id j1
    play town.db judge 12 2 accept:1,1, --id j1
    play town.db judge 12 2 accept:1,,2 --id j1
    play town.db judge 12 2 accept:1,,2 --id j1
    play town.db judge 12 2 reject:3 --id j2

    # batch 13: keyed unlike, and then again
    play town.db import-keying 9 13 1 bad.csv --id k3
    play town.db import-keying 9 13 1 thirteen.csv --id k3
    play town.db again 13 --id a1
    play town.db import-keying 4 13 1 unlike.csv --id k3
    play town.db status 7
    play town.db again 13 --id a1
    play town.db again 13 --id a1
    play town.db import-keying 4 13 1 thirteen.csv --id k4
    play town.db import-keying 4 13 2 thirteen.csv --id k4
    play town.db import-keying 9 13 2 thirteen.csv --id k4
    play town.db status 7

    # batch 14: keyed unlike, and then by a third clerk too
    play town.db batch 14 7 2 4 9 --id b4
    play town.db import-keying 4 14 1 twelve.csv --id k5
    play town.db third 14 5 --id t1
    play town.db import-keying 9 14 1 other.csv --id k5
    play town.db third 14 9 --id t1
    play town.db third 14 5 --id t1
    play town.db third 14 5 --id t1
    play town.db third 14 6 --id t2
    play town.db import-keying 5 14 1 other.csv --id k1
    play town.db status 7
    play town.db again 14 --id a2
} >"$folder/played"

compare keying
