#!/usr/bin/env bash
# Plays an evening of an office that serves: clerks key over HTTP, and the office gives its orders meanwhile. Then the server is killed, and
# something else lies where its socket would be.
# shellcheck source=examples/play.bash
source "$(dirname "$(readlink -f "${BASH_SOURCE[0]}")")/play.bash"

port=$((20000 + RANDOM % 20000))
server=

# A program that serves ends with the example.
stop() {
    if [[ -n $server ]]; then
        kill -KILL "$server" 2>/dev/null || true
        wait "$server" 2>/dev/null || true
        server=
    fi
}
trap 'stop; rm -rf "$folder"' EXIT

# Serves the office without a limit of connections, and waits until it answers.
serve() {
    local tries=0
    echo "\$ count-office town.db serve PORT"
    (cd "$folder" && exec "$office" town.db serve "$port" 2>said) &
    server=$!
    until (exec 3<>"/dev/tcp/127.0.0.1/$port") 2>/dev/null; do
        tries=$((tries + 1))
        [[ $tries -lt 200 ]] || { echo "no office answers"; return 1; }
        sleep 0.05
    done
    sed 's/^/error: /' "$folder/said"
}

# Asks the office that serves.
ask() {
    local target=$1
    shift
    echo "\$ curl $target"
    curl --silent --show-error --max-time 60 --write-out '\nstatus %{http_code}\n' "$@" "http://127.0.0.1:$port$target"
}

# Gives an order whose output is closed.
play_closed() {
    local status=0
    echo "\$ count-office $* >&-"
    (cd "$folder" && "$office" "$@" 2>errors >&-) || status=$?
    sed 's/^/error: /' "$folder/errors"
    echo "status $status"
}

# Plays a script of which each order is refused, with more refusals than one frame of the socket has bytes.
play_refused() {
    local status=0
    for number in {1..3000}; do echo "seal 8 --id m$number"; done >"$folder/refused.txt"
    echo "\$ count-office town.db replay refused.txt --keep-going"
    (cd "$folder" && "$office" town.db replay refused.txt --keep-going >output 2>errors) || status=$?
    sed 's/^/output: /' "$folder/output"
    echo "errors: $(wc -l <"$folder/errors") lines, $(wc -c <"$folder/errors") bytes, the last of them:"
    tail -n 1 "$folder/errors" | sed 's/^/error: /'
    echo "status $status"
}

# What lies where the socket is made.
look() {
    echo "\$ stat town.db-serve"
    if [[ -S $folder/town.db-serve ]]; then
        stat --format '%F, %a' "$folder/town.db-serve"
    else
        stat --format '%F' "$folder/town.db-serve" 2>/dev/null || echo "nothing is there"
    fi
}

cat >"$folder/nine.csv" <<'CSV'
paper,1,2,3
1,1,2,
2,D,,
CSV
cat >"$folder/evening.txt" <<'LINES'
# the last of the evening
import-keying 9 13 1 thirteen.csv --id k2
judge 12 2 accept:1,,2 --id j1
LINES
cat >"$folder/thirteen.csv" <<'CSV'
paper,1,2,3
1,,1,
CSV

{
    play town.db init
    play town.db ward 7 1 Harbour --id w1
    play town.db candidate 7 1 Ann --id c1
    play town.db candidate 7 2 Bob --id c2
    play town.db candidate 7 3 Cy --id c3
    play town.db close 7 --id w2
    look
    serve
    look
    # what is given while it serves is followed by the very office, between two clients
    play town.db batch 12 7 2 4 9 --id b1
    ask /clerks/4/work
    play town.db batch 13 7 1 4 9 --id b2
    ask /clerks/4/batches/12/keying -d '{"id":"k1","round":1,"papers":["1,2,","D"]}'
    ask /clerks/4/batches/13/keying -d '{"id":"k2","round":1,"papers":[",1,"]}'
    play town.db status 7
    play_closed town.db status 7
    # the files that an order names are read by the order
    play town.db import-keying 9 12 1 nine.csv --id k1
    play town.db import-keying 9 12 1 none.csv --id k1
    play town.db replay evening.txt
    play_refused
    play town.db status 7
    ask /clerks/9/work
    # words that mean nothing never reach the office, and these orders aren't for one that is served
    play town.db judge 12 2 maybe --id j2
    play town.db init
    play town.db migrate
    play town.db serve 1 1
    # a refusal, and the same order under its id once more
    play town.db seal 8 --id s1
    play town.db seal 7 --id s1
    play town.db seal 7 --id s1
    play town.db count 7 --id n
    play town.db sheet 7
    ask /wards/7/sheet
    ask /wards/7/sheet
    # a copy, and the journal
    play town.db copy copy.db
    play town.db copy copy.db
    play copy.db status 7
    play town.db journal
    play town.db declare 7 --id d1
    ask /wards/7/result
    # it is killed: its socket stays, and orders continue without it
    stop
    look
    play town.db status 7
    serve
    look
    play town.db status 7
    stop
    # where something else lies, it serves without orders, and an order finds the file held
    rm "$folder/town.db-serve"
    echo "no socket" >"$folder/town.db-serve"
    serve
    look
    play town.db status 7
    ask /clerks/4/work
    stop
    # its log is removed while it serves: reads are answered, nothing more is accepted, and a copy has everything that was
    rm "$folder/town.db-serve"
    serve
    rm "$folder/town.db-wal"
    ask /wards/7/result
    ask /clerks/4/batches/12/keying -d '{"id":"k9","round":1,"papers":["1,2,","D"]}'
    play town.db ward 9 1 Hill --id w9
    play town.db copy rescued.db
    play rescued.db status 7
    sed 's/^/serve: /' "$folder/said"
    stop
} >"$folder/played"

compare serving
