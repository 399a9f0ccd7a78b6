#!/usr/bin/env bash
# Plays a contested election from `init` to its declaration, with a lot, and a ward that is uncontested.
# shellcheck source=examples/play.bash
source "$(dirname "$(readlink -f "${BASH_SOURCE[0]}")")/play.bash"

# Makes a file in the folder that the orders are played in, a line for each word.
file() {
    printf '%s\n' "${@:2}" >"$folder/$1"
}

file candidates.csv ward,candidate,name 7,1,Ann 7,2,Bob 7,3,Cy 7,4,Dee 7,5,Eve
file twelve.csv paper,1,2,3,4,5 1,1,,2,, 2,1,,2,, 3,1,,2,, 4,1,,2,, 5,1,,2,, 6,,,1,, 7,,,1,,
file thirteen.csv paper,1,2,3,4,5 1,,1,,2, 2,,1,,2, 3,,1,,2, 4,,1,,2, 5,,1,,2, 6,,,,1, 7,D,,,, 8,1,,1,,

{
    play town.db init
    play town.db ward 7 3 Harbour --id w1
    play town.db ward 8 2 Quay --id w2
    play town.db import-candidates candidates.csv --id c
    play town.db candidate 8 1 Dee --id e1
    play town.db candidate 8 2 Eve --id e2
    play town.db close 7 --id n1
    play town.db batch 12 7 7 4 9 --id b1
    play town.db batch 13 7 8 4 9 --id b2
    play town.db import-keying 4 12 1 twelve.csv --id k1
    play town.db import-keying 9 12 1 twelve.csv --id k1
    play town.db import-keying 4 13 1 thirteen.csv --id k2
    play town.db seal 7 --id s1
    play town.db import-keying 9 13 1 thirteen.csv --id k2
    play town.db seal 7 --id s1
    play town.db judge 13 7 accept:,,,,1 --id j1
    play town.db advance 7 --id a1
    play town.db ballots 7
    play town.db page 7
    play town.db table 7
    play town.db seal 7 --id s1

    # the count, in which two surpluses are equal
    play town.db sheet 7
    play town.db ballots 7
    play town.db table 7
    play town.db advance 7 --id a1
    play town.db advance 7 --id a1
    play town.db sheet 7
    play town.db advance 7 --id a2
    play town.db declare 7 --id d1
    play town.db lot 7 3 1 --id l1
    play town.db lot 7 2 3 --id l1
    play town.db lot 7 2 1 --id l1
    play town.db lot 7 2 2 --id l2
    play town.db advance 7 --id a2
    play town.db advance 7 --id a3
    play town.db advance 7 --id a4
    play town.db status 7
    play town.db advance 7 --id a5
    play town.db advance 7 --id a6
    play town.db sheet 7
    play town.db result 7
    play town.db declare 7 --id d1
    play town.db result 7
    play town.db ballots 7
    play town.db table 7
    play town.db page 7 --title 'Vote & <Council>'
    play town.db status 7

    # a ward with as many candidates as seats
    play town.db close 8 --id n2
    play town.db advance 8 --id a1
    play town.db advance 8 --id a7
    play town.db sheet 8
    play town.db ballots 8
    play town.db table 8
    play town.db page 8
    play town.db index
    play town.db declare 8 --id d2
    play town.db result 8
    play town.db index --title 'Vote & <Council>'
} >"$folder/played"

compare count
