#!/usr/bin/env bash
# Plays an evening whose disk is lost. Its journal is on a stick, as a second record, whose last line was cut: a new office is made from
# it, and compared with it. Then records that lack a request, that have one more, of another office, and that aren't records; one that orders
# keep up to date themselves; and one that is kept while the office is served, which loses its disk in the middle of the evening.
# shellcheck source=examples/play.bash
source "$(dirname "$(readlink -f "${BASH_SOURCE[0]}")")/play.bash"

port=$((20000 + RANDOM % 20000))
server=
trap '[[ -z $server ]] || kill -KILL "$server" 2>/dev/null; rm -rf "$folder"' EXIT

# Serves an office with a new record on the stick, for a number of clients if one is given. Waits until the note that names the record is
# there, and shows what was said up to then.
serve_recorded() {
    echo "\$ count-office $1 serve PORT${3:+ $3} --second stick/$2"
    (cd "$folder" && exec "$office" "$1" serve "$port" ${3:+"$3"} --second "stick/$2" 2>said) &
    server=$!
    for _ in {1..400}; do
        if [[ -e $folder/$1-recording ]]; then
            sed 's/^/error: /' "$folder/said"
            return 0
        fi
        sleep 0.05
    done
    echo "nothing is at $1-recording"
}

# Plays an order, and hides the time and the folder in what it prints.
play_anywhere() {
    play "$@" | sed -E "s#$(readlink -f "$folder")#FOLDER#g; s/[0-9]{2}:[0-9]{2}:[0-9]{2} UTC/TIME UTC/"
}

# Shows what the note of a record next to an office says.
show_note() {
    if [[ -e $folder/$1-recording ]]; then echo "$1 has a note"; else echo "$1 has no note"; fi
}

# Shows a record of the stick without its times.
show_record() {
    sed -E 's/^# [0-9]{2}:[0-9]{2}:[0-9]{2} UTC/# TIME UTC/' "$folder/stick/$1"
}

# Keeps the journal of an office on the stick, without its comments: one line for each request.
keep_record() {
    (cd "$folder" && "$office" "$1" journal) | grep -v -e '^#' -e '^$' >"$folder/stick/$2"
}

mkdir "$folder/stick"
printf '%s\n' ward,candidate,name 7,1,Ann 7,2,Bob 7,3,Cy >"$folder/names.csv"

{
    play town.db init
    play town.db ward 7 1 Harbour --id w1
    play town.db import-candidates names.csv --id c
    play town.db close 7 --id n1
    play town.db batch 12 7 2 4 9 --id b1
    play town.db key 4 12 1 1,2, 1,,2 --id k1
    keep_record town.db early.script
    play town.db second stick/early.script
    # the record lacks what was accepted since
    play town.db key 9 12 1 1,2, 1,,2 --id k7
    play town.db second stick/early.script
    play town.db seal 7 --id s1
    play town.db second stick/early.script
    play town.db advance 7 --id a1
    play town.db declare 7 --id d1
    keep_record town.db town.script

    # the disk is gone; the last line of the record was cut in the middle
    rm "$folder"/town.db*
    head -c -9 "$folder/stick/town.script" >"$folder/stick/cut.script"
    tail -n 1 "$folder/stick/cut.script"
    echo
    play new.db init
    play new.db replay stick/cut.script
    play new.db replay stick/cut.script --cut
    play new.db second stick/cut.script
    # the whole record has the request that was cut
    play new.db second stick/town.script
    play new.db declare 7 --id d1
    play new.db second stick/town.script

    # nothing was cut: there is no note
    play same.db init
    play same.db replay stick/town.script --cut
    play same.db second stick/town.script

    # of another office, no record, and no file
    play other.db init
    play other.db second stick/town.script
    echo 'import-candidates names.csv --id c' >"$folder/stick/import.script"
    play new.db second stick/import.script
    printf '%s\n' 'close 7 --id n1' wards >"$folder/stick/wards.script"
    play new.db second stick/wards.script
    play new.db second stick/missing.script

    # a record that orders keep up to date themselves: what is accepted is appended, and nothing else
    play kept.db init
    play kept.db ward 7 1 Harbour --id w1
    (umask 077 && cd "$folder" && "$office" kept.db journal >stick/kept.script)
    play kept.db --second stick/kept.script import-candidates names.csv --id c
    play kept.db candidate 7 4 --id c4 --second stick/kept.script -- "-Bob O'Neill"
    play kept.db candidate 7 4 --id c4 --second stick/kept.script -- "-Bob O'Neill"
    play kept.db candidate 7 1 Eve --id c5 --second stick/kept.script
    show_record kept.script
    play kept.db second stick/kept.script

    # an order without the option: the record isn't continued, and nothing is done
    play kept.db withdraw 7 1 --id x1
    play kept.db withdraw 7 2 --id x2 --second stick/kept.script
    play kept.db wards
    # a record whose last line was cut, one that others may write to, none, and orders that take none
    head -c -3 "$folder/stick/kept.script" >"$folder/stick/torn.script"
    play kept.db close 7 --id n1 --second stick/torn.script
    chmod 666 "$folder/stick/kept.script"
    play kept.db close 7 --id n1 --second stick/kept.script
    play kept.db close 7 --id n1 --second stick/missing.script
    play kept.db close 7 --id n1 --second ""
    play more.db init --second stick/kept.script
    play kept.db close 7 --id n1 --second

    # an office that is served with a new record; the machine stops, and its disk is lost
    play evening.db init
    play evening.db ward 7 1 Harbour --id w1
    serve_recorded evening.db evening.script
    play evening.db import-candidates names.csv --id c
    play evening.db close 7 --id n1
    play evening.db batch 12 7 2 4 9 --id b1
    play evening.db key 4 12 1 1,2, 1,,2 --id k1
    play evening.db key 4 12 1 1,2, 1,,2 --id k1 --second stick/kept.script
    # both hold the same, also while the office is served; a copy says where the record is
    play evening.db second stick/evening.script
    play evening.db second stick/kept.script
    play evening.db second stick/missing.script
    play_anywhere evening.db copy copied.db
    kill -KILL "$server" && { wait "$server" || true; } 2>/dev/null
    server=
    # what is done now isn't in the record, and says so, unless it goes there
    play_anywhere evening.db wards
    play_anywhere evening.db batch 13 7 2 4 9 --id b2 --second stick/evening.script
    show_note evening.db
    rm "$folder"/evening.db*
    show_record evening.script
    play anew.db init
    play anew.db replay stick/evening.script --cut
    play anew.db second stick/evening.script
    # that record is there already, so serving begins another; once that ends by itself, there is no note
    play anew.db serve 8080 --second stick/evening.script
    serve_recorded anew.db anew.script 1
    show_note anew.db
    (exec 3<>"/dev/tcp/127.0.0.1/$port" && printf 'GET / HTTP/1.0\r\n\r\n' >&3 && cat <&3) >/dev/null || true
    wait "$server"
    server=
    show_note anew.db
    play anew.db wards

    # a name that a file of an office may have; and a record that is taken away while the office is served: nothing more is acknowledged
    play anew.db serve 8080 --second anew.db-journal
    serve_recorded anew.db taken.script
    play anew.db ward 8 1 Quay --id w8
    mv "$folder/stick/taken.script" "$folder/stick/away.script"
    play anew.db ward 9 1 Pier --id w9
    play anew.db ward 9 1 Pier --id w9
    kill -KILL "$server" && { wait "$server" || true; } 2>/dev/null
    server=
    play anew.db second stick/away.script
} >"$folder/played"
compare disk-gone
