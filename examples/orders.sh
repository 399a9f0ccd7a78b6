#!/usr/bin/env bash
# Plays the ten lines of an election that docs/formats/orders.md shows, in their order, over the files that they name.
# shellcheck source=examples/play.bash
source "$(dirname "$(readlink -f "${BASH_SOURCE[0]}")")/play.bash"

printf '%s\n' ward,candidate,name 7,1,Ann 7,2,Bob 7,3,Cy >"$folder/candidates.csv"
printf '%s\n' paper,1,2,3 1,1,2, 2,,1, | tee "$folder/clerk4.csv" >"$folder/clerk9.csv"

while IFS= read -r line <&3; do
    # What follows a # is for readers alone.
    if [[ $line == './count-office town.db '* ]]; then eval "play ${line#./count-office }"; fi
done 3<"$here/../docs/formats/orders.md" >"$folder/played"

compare orders
