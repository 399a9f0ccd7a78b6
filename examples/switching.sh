#!/usr/bin/env bash
# Plays an office that goes over to a new one while clerks key: a verdict was mistyped, and is put right in a new office. Then the server is
# started again by either name, and a switch that can't be done changes nothing.
# shellcheck source=examples/play.bash
source "$(dirname "$(readlink -f "${BASH_SOURCE[0]}")")/play.bash"

port=$((20000 + RANDOM % 20000))
server=

# A program that serves ends with the example.
stop() {
    if [[ -n $server ]]; then
        kill -KILL "$server" 2>/dev/null || true
        wait "$server" 2>/dev/null || true
        server=
    fi
}
trap 'stop; rm -rf "$folder"' EXIT

# Waits until something is at a path.
wait_for() {
    local tries=0
    until [[ -e $folder/$1 ]]; do
        tries=$((tries + 1))
        [[ $tries -lt 400 ]] || { echo "nothing is at $1"; return 1; }
        sleep 0.05
    done
}

# Serves an office, and waits until the socket for the orders of the one that is served then is there.
serve() {
    local database=$1 served=$2
    rm -f "$folder/$served-serve"
    echo "\$ count-office $database serve PORT"
    (cd "$folder" && exec "$office" "$database" serve "$port" 2>said) &
    server=$!
    wait_for "$served-serve"
}

# What the server said, with the folder of the example left out.
tell_said() {
    sed -e 's/^/serve: /' -e "s:$(readlink -f "$folder"):FOLDER:g" "$folder/said"
}

# Asks the office that serves.
ask() {
    local target=$1
    shift
    echo "\$ curl $target"
    curl --silent --show-error --max-time 60 --write-out '\nstatus %{http_code}\n' "$@" "http://127.0.0.1:$port$target"
}

# Gives an order, and prints paths without the folder of the example.
play_here() {
    play "$@" | sed "s:$(readlink -f "$folder"):FOLDER:g"
}

# The note next to an office.
look() {
    echo "\$ stat $1"
    if [[ -e $folder/$1 ]]; then
        stat --format '%F, %a' "$folder/$1"
        sed "s:$(readlink -f "$folder"):FOLDER:g" "$folder/$1"
    else
        echo "nothing is there"
    fi
}

{
    play town.db init
    play town.db ward 7 1 Harbour --id w1
    play town.db candidate 7 1 Ann --id c1
    play town.db candidate 7 2 Bob --id c2
    play town.db candidate 7 3 Cy --id c3
    play town.db close 7 --id w2
    play town.db batch 12 7 2 4 9 --id b1
    play town.db batch 13 7 1 4 9 --id b2
    serve town.db town.db
    ask /clerks/4/batches/12/keying -d '{"id":"k1","round":1,"papers":["1,2,","D"]}'
    ask /clerks/9/batches/12/keying -d '{"id":"k1","round":1,"papers":["1,2,","D"]}'
    play town.db judge 12 2 accept:1,,2 --id j1
    # the verdict is mistyped: what would be put right, and then a keying that this new office doesn't have
    play town.db mend looked.db --with "judge 12 2 accept:1,2, --id j2"
    ask /clerks/4/batches/13/keying -d '{"id":"k2","round":1,"papers":[",1,"]}'
    play looked.db batches 7
    # a switch that can't be done: a name that no order has, and one where something is
    play town.db switch new.db --without j9
    play town.db switch looked.db
    look town.db-moved
    # the switch: the server continues with the new office, and the port stays open
    play town.db switch new.db --with "judge 12 2 accept:1,2, --id j2"
    look town.db-moved
    wait_for new.db-serve
    tell_said
    ask /clerks/9/batches/13/keying -d '{"id":"k2","round":1,"papers":[",1,"]}'
    ask /clerks/4/batches/13/keying -d '{"id":"k2","round":1,"papers":[",1,"]}'
    play new.db batches 7
    play new.db receipts 0
    # the old office has what it had; each order on it says where the office is
    play_here town.db batches 7
    play_here town.db receipts 4
    play_here town.db switch other.db
    play_here town.db copy town.db-moved
    # it goes over once more
    play new.db switch newer.db --without j2
    wait_for newer.db-serve
    tell_said
    ask /clerks/4/batches/12/keying -d '{"id":"k1","round":1,"papers":["1,2,","D"]}'
    play newer.db doubtful 7
    stop
    # started by the first name, it serves the last office
    serve town.db newer.db
    tell_said
    ask /clerks/4/work
    stop
    # a note that isn't one keeps it from serving
    rm "$folder/newer.db-serve" "$folder/new.db-moved"
    echo "newer.db" >"$folder/new.db-moved"
    play new.db serve "$port" 1 | sed "s/serve $port/serve PORT/"
    # without its file, the note keeps another office from being made there
    rm "$folder/town.db"
    play town.db init
    # an office that isn't served
    play newer.db switch last.db
    look newer.db-moved
    play_here newer.db status 7
    play last.db status 7
} >"$folder/played"

compare switching
