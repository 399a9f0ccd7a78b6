#!/usr/bin/env bash
# Plays the first orders of an office over a new database.
# shellcheck source=examples/play.bash
source "$(dirname "$(readlink -f "${BASH_SOURCE[0]}")")/play.bash"

echo 'Ann, Bob and Cy' >"$folder/names.txt"
: >"$folder/empty.txt"

# The office, with a limit of 1024 bytes for each file.
cramped_office() {
    (ulimit -f 1 && "$launcher" "$@")
}

# Shows which files there are.
list_files() {
    echo "files: $(ls -x "$folder" --ignore=output --ignore=errors --ignore=played)"
}

{
    # an order on a file that isn't there, or that holds nothing, makes no office
    play town.db ward 7 2 Harbour --id w1
    play missing/town.db status 7
    play empty.txt status 7
    list_files
    play town.db init
    play town.db ward 7 2 Harbour --id w1
    play town.db ward 7 2 Harbour --id w1
    play town.db ward 8 2 Quay --id w1
    play town.db ward 8 2 Quay --id QUAY
    play town.db ward 7 3 Pier --id w2
    play town.db ward 0 2 Pier --id w3
    play town.db init
    play town.db ward 8 2 Quay --id w4
    play missing/town.db init
    # a write past the system's limit of a file's size fails; without the limit the order is done
    office=cramped_office play other.db init
    office=cramped_office play town.db ward 9 2 Pier --id w5
    play town.db status 9
    play town.db ward 9 2 Pier --id w5
    # a file that is no database stays as it is
    play names.txt init
    play names.txt status 7
    cat "$folder/names.txt"
    list_files
    wc -c <"$folder/empty.txt"
} >"$folder/played"

compare first-ward
