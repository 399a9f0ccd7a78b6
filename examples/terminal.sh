#!/usr/bin/env bash
# Plays what the program tells a person at a terminal in addition: names after verdicts and lots, seats that stay empty, and what was
# wanted in place of marks that are refused. Standard error is a terminal here, and standard output a file.
# shellcheck source=examples/play.bash
source "$(dirname "$(readlink -f "${BASH_SOURCE[0]}")")/play.bash"

port=$((20000 + RANDOM % 20000))
server=

# A program that serves ends with the example. It leaves its socket, which mustn't be taken for that of the next one.
stop() {
    if [[ -n $server ]]; then
        kill -KILL "$server" 2>/dev/null || true
        wait "$server" 2>/dev/null || true
        rm -f "$folder"/*-serve
        server=
    fi
}
trap 'stop; rm -rf "$folder"' EXIT

# Serves an office, and waits until the socket for its orders is there.
serve() {
    local tries=0
    echo "\$ count-office $1 serve PORT"
    (cd "$folder" && exec "$office" "$1" serve "$port" 2>said) &
    server=$!
    until [[ -e $folder/$1-serve ]]; do
        tries=$((tries + 1))
        [[ $tries -lt 400 ]] || { echo "nothing is at $1-serve"; return 1; }
        sleep 0.05
    done
}

# Plays an order whose standard error is a terminal. A line that is there only on a slow machine is left out. The words are quoted for bash,
# and script would give them to whatever shell SHELL names.
play_at_terminal() {
    local status=0 words
    printf -v words ' %q' "$office" "$@"
    echo "\$ count-office $* (at a terminal)" | cat -v
    (cd "$folder" && SHELL=$BASH script --quiet --return --command "$words >output" /dev/null </dev/null >errors) || status=$?
    sed 's/^/output: /' "$folder/output" | cat -v
    sed -e 's/\r$//' -e '/^waiting for .*: another order holds it$/d' -e 's/^/error: /' -e "s:$(readlink -f "$folder"):FOLDER:g" "$folder/errors" | cat -v
    echo "status $status"
}

{
    play town.db init
    play town.db ward 7 1 Harbour --id w7
    play town.db ward 8 3 Quay --id w8
    play town.db ward 9 2 Pier --id w9
    # the name of a candidate has a character that steers a terminal
    play_at_terminal town.db candidate 7 1 Ann --id c1
    play_at_terminal town.db candidate 7 2 $'Bob \xe2\x80\xaeJones' --id c2
    play_at_terminal town.db candidate 7 3 Cy --id c3
    play_at_terminal town.db candidate 8 5 Eve --id c5
    play_at_terminal town.db candidate 9 1 Fay --id c6
    play_at_terminal town.db close 7 --id n7
    play_at_terminal town.db close 8 --id n8
    play_at_terminal town.db close 9 --id n9
    play_at_terminal town.db batch 12 7 10 4 9 --id b12
    play_at_terminal town.db fields 12
    play_at_terminal town.db fields 12 4

    # marks that are refused: too many fields, too few, a field that isn't a number, and one that is too large
    papers=('1,,' '1,,' '1,,' '1,,' ',1,' ',1,' ',,1' ',,1' D D)
    play_at_terminal town.db key 4 12 1 1,, 1,,,,,,,2 "${papers[@]:2}" --id k1
    play town.db key 4 12 1 1,, 1,,,,,,,2 "${papers[@]:2}" --id k1
    play_at_terminal town.db key 4 12 1 "${papers[@]:0:9}" 1 --id k1
    play_at_terminal town.db key 4 12 1 "${papers[@]:0:9}" 1,x, --id k1
    play_at_terminal town.db key 4 12 1 100,, "${papers[@]:1}" --id k1
    printf '%s\n' paper,1,2,3 1,1,, 2,a,, >"$folder/keying.csv"
    play_at_terminal town.db batch 13 7 2 4 9 --id b13
    play_at_terminal town.db import-keying 4 13 1 keying.csv --id k2
    # other refusals and other orders have no remark
    play_at_terminal town.db key 5 12 1 "${papers[@]}" --id k1
    play_at_terminal town.db key 4 12 1 1,, --id k1
    for clerk in 4 9; do
        play_at_terminal town.db key "$clerk" 12 1 "${papers[@]}" --id k1
        play_at_terminal town.db key "$clerk" 13 1 ,1,2 D --id k2
    done

    # verdicts: marks that are refused; one that is accepted, with other words under its id, and not at a terminal; and a rejection
    play_at_terminal town.db judge 12 9 accept:1,2 --id v1
    play_at_terminal town.db judge 12 9 accept: --id v1
    play_at_terminal town.db judge 12 9 accept:1,01, --id v1
    play_at_terminal town.db judge 12 8 accept:,,1 --id v1
    play_at_terminal town.db judge 12 9 accept:3,2,1 --id v1
    play_at_terminal town.db judge 12 9 accept:1,,2 --id v1
    play town.db judge 12 9 accept:3,2,1 --id v1

    # the same while the office is served
    serve town.db
    play_at_terminal town.db judge 12 10 accept:,,,1 --id v2
    play_at_terminal town.db judge 12 10 reject:4 --id v2
    play_at_terminal town.db judge 13 2 reject:5 --id v3
    play_at_terminal town.db seal 7 --id s1
    play_at_terminal town.db advance 7 --id a1
    play_at_terminal town.db advance 7 --id a2
    play_at_terminal town.db lot 7 2 1 --id l1
    play_at_terminal town.db next 7
    stop

    # a lot, also with another candidate under its id; declarations with no seat that stays empty, with two and with one
    play_at_terminal town.db lot 7 2 2 --id l1
    play_at_terminal town.db lot 7 2 3 --id l1
    play town.db lot 7 2 2 --id l1
    play_at_terminal town.db count 7 --id a
    serve town.db
    play_at_terminal town.db lot 7 2 2 --id l1
    play_at_terminal town.db declare 7 --id d1
    play_at_terminal town.db declare 8 --id d8
    play town.db declare 8 --id d8
    stop
    play_at_terminal town.db declare 9 --id d9

    # once another office has taken the place of this one, nothing is said of either
    play_at_terminal town.db switch new.db --without v3
    play_at_terminal town.db declare 8 --id d8
    play_at_terminal new.db declare 8 --id d8
} >"$folder/played"

compare terminal
