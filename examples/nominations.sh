#!/usr/bin/env bash
# Plays the nominations of two wards: Harbour is polled, and Quay isn't contested.
# shellcheck source=examples/play.bash
source "$(dirname "$(readlink -f "${BASH_SOURCE[0]}")")/play.bash"

{
    play town.db init
    play town.db ward 7 1 Harbour --id w1
    play town.db ward 8 2 Quay --id w2
    play town.db candidate 7 1 Ann --id c1
    play town.db candidate 7 2 Bob --id c2
    play town.db candidate 7 2 Cy --id c3
    play town.db candidate 7 31 Zed --id c3
    play town.db candidate 9 1 Zed --id c3
    play town.db withdraw 7 2 --id x1
    play town.db withdraw 7 2 --id x2
    play town.db candidate 7 2 Bob --id c2
    play town.db candidate 7 2 Cy --id c3
    play town.db close 7 --id n1
    play town.db close 7 --id n1
    play town.db withdraw 7 1 --id x2
    play town.db close 8 --id n2
    play town.db candidate 8 1 Dee --id d1
    play town.db candidate 8 2 Eve --id d2
    play town.db close 8 --id n2
} >"$folder/played"

compare nominations
