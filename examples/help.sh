#!/usr/bin/env bash
# Plays the help: of the program, of each order, and where words aren't understood.
# shellcheck source=examples/play.bash
source "$(dirname "$(readlink -f "${BASH_SOURCE[0]}")")/play.bash"

{
    play --help
    for order in init ward candidate import-candidates withdraw close batch import-batches import-keying key again third judge seal advance count lot declare \
        status next sheet result serve migrate wards batches doubtful differences papers fields receipts journal second replay copy mend switch codes forms ballots page table index publish; do
        play town.db "$order" --help
    done
    # without a database too
    play status --help
    # and the version
    play town.db --version

    # words that are no order
    play
    play town.db
    play town.db jugde 12 6 accept:1 --id v1
    play town.db tally 7
    play town.db close 7
    play town.db close 7 --id
    play town.db close 7 8 --id n1
    play town.db close seven --id n1
    play town.db close $'\xff' --id n1 | LC_ALL=C sed 's/\xff/\\xff/'
    play town.db close 7 --id n1 --id n2
    play town.db ward 7 2 Old Harbour --id w1
    play town.db ward 7 2 -Harbour --id w1
    play town.db judge 12 6 maybe --id v1
    play town.db serve 0 10
    play town.db serve 8080 0
    play town.db serve 8080 1000001
    play town.db serve 8080 10 --origin count.example.org
    play town.db import-candidates names.csv --id c --sha256 12ab
} >"$folder/played"

compare help
