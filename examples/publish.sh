#!/usr/bin/env bash
# Plays the publication of results: a folder, whole or not at all, whose files have the digests that it lists; also while the office is served.
# shellcheck source=examples/play.bash
source "$(dirname "$(readlink -f "${BASH_SOURCE[0]}")")/play.bash"

port=$((20000 + RANDOM % 20000))
server=

# A program that serves ends with the example.
stop() {
    if [[ -n $server ]]; then
        kill -KILL "$server" 2>/dev/null || true
        wait "$server" 2>/dev/null || true
        server=
    fi
}
trap 'chmod -R u+w "$folder"; stop; rm -rf "$folder"' EXIT

mkdir "$folder/attic"
ln -s nothing "$folder/link"
: >"$folder/notes"
printf 'ward,candidate,name\n7,1,Ann\n7,2,Bob <b>\n7,3,Cy\n' >"$folder/names.csv"
printf 'paper,1,2,3\n1,1,2,\n2,1,,2\n3,,1,2\n4,1,2,3\n' >"$folder/four.csv"

# The office, with a limit of 4096 bytes for each file.
cramped_office() {
    (ulimit -f 4 && "$launcher" "$@")
}

# The office, whose output has no room.
mute_office() {
    "$launcher" "$@" >/dev/full
}

# The office, whose files others may not read by themselves.
private_office() {
    (umask 077 && "$launcher" "$@")
}

# Shows which files a folder has, who may read them, and whether they have the digests that the folder lists.
show() {
    (
        cd "$folder/$1"
        echo "files of $1:" *
        echo "rights: $(stat -c %a . ./* | sort -u | paste -sd ' ')"
        sha256sum --check --quiet SHA256SUMS && echo "digests: $(wc -l <SHA256SUMS)"
    )
}

# Shows what is in the folder of the office.
list_files() {
    echo "files: $(ls -m -w 0 "$folder" --ignore=output --ignore=errors --ignore=played)"
}

{
    play town.db init
    play town.db ward 7 2 Harbour --id w1
    play town.db ward 8 1 Quay --id w2
    play town.db import-candidates names.csv --id c1
    play town.db candidate 8 1 Dee --id c2
    play town.db close 7 --id n1
    play town.db batch 12 7 4 4 9 --id b1
    play town.db import-keying 4 12 1 four.csv --id k1
    play town.db import-keying 9 12 1 four.csv --id k1

    # before a seal there is only the index
    play town.db publish early
    show early

    play town.db seal 7 --id s1
    play town.db count 7 --id a

    # onto a file, a folder, a link to nothing, and in a folder that is missing or a file
    play town.db publish notes
    play town.db publish attic
    play town.db publish attic/
    play town.db publish link
    play town.db publish missing/results
    play town.db publish notes/results
    play town.db publish ""
    list_files

    # what a stop left is in the way
    mkdir "$folder/results.part"
    play town.db publish results
    rmdir "$folder/results.part"

    # if there is no room, nothing is left
    office=cramped_office play town.db publish results
    list_files

    # the ward that is counted, without its ballots; a title; everyone may read the folder, whatever the umask
    office=private_office play town.db publish results --title "Harbour <council>"
    show results
    (cd "$folder/results" && echo "with the title: $(grep -l "Harbour &lt;council&gt;" -- *.html | paste -sd ' ')")
    play - check early
    play - check results

    # the texts are those of the orders
    for pair in "sheet ward-7-sheet.txt" "table ward-7-table.csv"; do
        read -r order file <<<"$pair"
        (cd "$folder" && "$office" town.db "$order" 7) | cmp - "$folder/results/$file" && echo "$file is what $order prints"
    done

    # nothing is published over it
    play town.db publish results

    # once declared, with its ballots; where the reply can't be printed, the folder is there
    play town.db declare 7 --id d1
    office=mute_office play town.db publish declared --ballots
    show declared
    play - check declared/ward-7-ballots.txt declared/ward-7-sheet.txt
    play - check declared

    # a file that was changed is noticed
    cp "$folder/declared/ward-7-sheet.txt" "$folder/sheet.txt"
    echo >>"$folder/declared/ward-7-sheet.txt"
    (cd "$folder/declared" && sha256sum --check --quiet SHA256SUMS) 2>&1 || true
    play - check declared

    # also if its sum was changed with it; or only the sum; and a link, a file that is missing, another one, and ballots that aren't understood
    (cd "$folder/declared" && sha256sum -- *.html *.txt *.csv *.json >SHA256SUMS)
    play - check declared
    cp "$folder/sheet.txt" "$folder/declared/ward-7-sheet.txt"
    play - check declared
    rm "$folder/declared/check.html" "$folder/declared/ward-7-table.csv"
    ln -s ../sheet.txt "$folder/declared/ward-7-table.csv"
    cp "$folder/sheet.txt" "$folder/declared/notes.txt"
    play - check declared
    sed -i '2s/ 0$//' "$folder/declared/ward-7-ballots.txt"
    play - check declared

    # while the office is served, it is published as it is then
    (cd "$folder" && exec "$office" town.db serve "$port") &
    server=$!
    until [[ -S $folder/town.db-serve ]]; do sleep 0.05; done
    play town.db publish attic/served --ballots
    show attic/served
    play town.db publish attic/served
    stop
} >"$folder/played"

compare publish
