#!/usr/bin/env bash
# Plays an evening with seven slips, at the console and by typed orders, while clerks key. Each slip is noticed or put right by `switch`, and
# no clerk keys anything again but the one who left a paper out. In the end the tables are those of the same evening without slips.
# shellcheck source=examples/play.bash
source "$(dirname "$(readlink -f "${BASH_SOURCE[0]}")")/play.bash"

port=$((20000 + RANDOM % 20000))
server=
declare -A codes=([4]=kf7m-2wxt [9]=w3hd-4psn [11]=p6rn-c3kd [office]=h4dn-p3cs-kf7m-2wxt)
# The keyings: 12 has a doubtful paper; in the last, paper 3 of batch 14 is left out.
declare -A papers=(
    [12]='"1,2,","D",",1,","3,2,1"' [13]='"1,,",",1,2","2,1,"' [15]='"1,,",",,1","1,2,3"'
    [14]='"1,,",",1,",",,1","1,2,","2,1,",",1,2","1,,2",",2,1"' [short]='"1,,",",1,","1,2,","2,1,",",1,2","1,,2",",2,1","D"')

stop() {
    if [[ -n $server ]]; then
        kill -KILL "$server" 2>/dev/null || true
        wait "$server" 2>/dev/null || true
        server=
    fi
}
trap 'stop; rm -rf "$folder"' EXIT

# Waits until an office is served.
wait_for() {
    local tries=0
    until [[ -e $folder/$1-serve ]]; do
        tries=$((tries + 1))
        [[ $tries -lt 1200 ]] || { echo "$1 isn't served"; return 1; }
        sleep 0.05
    done
}

serve() {
    (cd "$folder" && exec "$office" "$1" serve "$port" --codes codes.txt 2>said) &
    server=$!
    wait_for "$1"
}

ask() {
    curl --silent --show-error --max-time 60 -u "$1:${codes[$1]}" "http://127.0.0.1:$port$2" "${@:3}"
    echo
}

# A clerk keys a batch: the clerk, the batch, and the papers if they aren't those of the batch.
key() {
    echo "clerk $1 keys ${3-$2}"
    ask "$1" "/clerks/$1/batches/$2/keying" -d "{\"id\":\"k$2\",\"round\":1,\"papers\":[${papers[${3-$2}]}]}"
}

# The officer gives an order at the console.
order() {
    local words
    words=$(printf ',"%s"' "$@")
    echo "console: $*"
    ask office /office/orders -d "{\"files\":{},\"words\":[${words:1}]}"
}

# What is the same on both evenings, before anything is keyed; with the words for the name of the second candidate.
begin() {
    play "$1" init
    play "$1" ward 7 2 Harbour --id w1
    play "$1" candidate 7 1 Ann --id c1
    play "$1" candidate 7 2 "$2" --id c2
    play "$1" candidate 7 3 Cy --id c3
    play "$1" close 7 --id w2
    serve "$1"
    order batch 12 7 4 4 9 --id b12
}

# The rest of the evening, once every paper is agreed.
count() {
    play "$1" seal 7 --papers 18 --id s1
    play "$1" count 7 --id a
    play "$1" declare 7 --id d1
    play "$1" result 7
    play "$1" receipts
}

# Prints each row of each table.
rows() {
    python3 - "$folder/$1" <<'END'
import sqlite3
import sys

office = sqlite3.connect(sys.argv[1])
for (table,) in office.execute("SELECT name FROM sqlite_master WHERE type = 'table' ORDER BY name").fetchall():
    for row in sorted(office.execute(f'SELECT * FROM "{table}"'), key=repr):
        print(table, *row)
END
}

(umask 077 && for name in 4 9 11 office; do echo "$name ${codes[$name]}"; done >"$folder/codes.txt")

{
    # 1, a name is mistyped
    begin town.db Bbo
    # 2, a batch's size; and 3, a clerk
    order batch 13 7 5 4 9 --id b13
    play town.db batch 14 7 8 9 4 --id b14
    key 4 12
    key 9 12
    key 4 13
    # the three are put right by one order
    order switch town-2.db --with "candidate 7 2 Bob --id c2" --with "batch 13 7 3 4 9 --id b13" --with "batch 14 7 8 9 11 --id b14"
    wait_for town-2.db
    key 4 13
    key 9 13
    # 4, clerk 9 leaves a paper out
    key 9 14 short
    key 11 14
    play town-2.db differences 14
    # 5, an order on the old file
    play town.db judge 12 2 accept:1,2, --id j2 | sed "s:$(readlink -f "$folder"):FOLDER:g"
    # 6, the verdict is mistyped
    play town-2.db judge 12 2 accept:1,2, --id j2
    # 7, a batch is forgotten
    play town-2.db seal 7 --papers 18 --id s1
    # the keying and the verdict are put right by one order; clerk 9 keys the batch again
    play town-2.db switch town-3.db --without 9:k14 --with "judge 12 2 accept:1,,2 --id j2"
    wait_for town-3.db
    sed "s:$(readlink -f "$folder"):FOLDER:g" "$folder/said"
    key 9 14
    order batch 15 7 3 9 11 --id b15
    key 11 15
    key 9 15
    play town-3.db differences 14
    count town-3.db
    stop

    echo "the same evening without slips"
    begin other.db Bob
    order batch 13 7 3 4 9 --id b13
    order batch 14 7 8 9 11 --id b14
    for keyed in "4 12" "9 12" "4 13" "9 13" "11 14" "9 14"; do
        # shellcheck disable=SC2086 # a clerk and a batch
        key $keyed
    done
    play other.db judge 12 2 accept:1,,2 --id j2
    order batch 15 7 3 9 11 --id b15
    key 11 15
    key 9 15
    count other.db
    stop
    rows town-3.db >"$folder/slips"
    rows other.db >"$folder/none"
    diff "$folder/slips" "$folder/none" && echo "the tables are the same: $(wc -l <"$folder/none") rows"
} >"$folder/played" 2>&1

compare slips
