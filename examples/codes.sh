#!/usr/bin/env bash
# Plays clerks' codes, and the office's: a new file of them, files that aren't taken, and who is let in over HTTP, along with wrong codes
# too; and orders of the officer's console.
# shellcheck source=examples/play.bash
source "$(dirname "$(readlink -f "${BASH_SOURCE[0]}")")/play.bash"

port=$((20000 + RANDOM % 20000))

# Asks the office that serves, with the words of `curl`.
ask() {
    local target=$1
    shift
    echo "\$ curl $* $target"
    curl --silent --show-error --max-time 60 --write-out '\nstatus %{http_code}, %{content_type}\n' "$@" "http://127.0.0.1:$port$target"
}

# The lines that an answer has besides its length and its body.
look() {
    local target=$1
    shift
    echo "\$ curl --head $* $target"
    curl --silent --show-error --max-time 60 --dump-header - --output "$folder/body" "$@" "http://127.0.0.1:$port$target" |
        tr -d '\r' | grep -v '^Content-Length\|^$' | sed 's/sha256-[^'\'']*/sha256-../g'
    head -c 15 "$folder/body"
    echo
}

# Serves with codes, until the commands of these functions have been played.
serve() {
    local server tries=0 played
    (cd "$folder" && exec "$office" town.db serve "$port" --codes codes.txt) &
    server=$!
    until (exec 3<>"/dev/tcp/127.0.0.1/$port") 2>/dev/null; do
        tries=$((tries + 1))
        [[ $tries -lt 200 ]] || { echo "no office answers on port $port"; return 1; }
        sleep 0.05
    done
    for played in "$@"; do "$played"; done
    kill -KILL "$server"
    wait "$server" 2>/dev/null || true
}

# A file that isn't taken.
refuse() {
    local mode=$1
    shift
    rm -f "$folder/bad.txt"
    # shellcheck disable=SC2059 # the first of the words is the form
    (umask 077 && printf "$@" >"$folder/bad.txt")
    chmod "$mode" "$folder/bad.txt"
    play town.db serve "$port" 1 --codes bad.txt | sed "s/ $port / PORT /"
}

let_in() {
    local keyed='{"id":"k1","round":1,"papers":["1,2,","D"]}' try
    ask /clerks/4/work
    ask /clerks/4/work -u 4:kf7m-2wxt
    ask /clerks/4/work -u 4:KF7M-2WXT
    ask /clerks/4/work -u 9:w3hd-4psn
    ask /clerks/9/work -u 4:kf7m-2wxt
    ask /clerks/4/work -u office:h4dn-p3cs-kf7m-2wxt
    ask /clerks/4/work -u 4:h4dn-p3cs-kf7m-2wxt
    ask /clerks/4/batches/12/candidates -u 4:kf7m-2wxt
    ask /clerks/4/batches/13/candidates -u 4:kf7m-2wxt
    ask /clerks/4/batches/12/keying -d "$keyed"
    ask /clerks/4/batches/12/keying -u 4:kf7m-2wxt -d "$keyed"
    ask /clerks/4/batches/12/keying -u 4:kf7m-2wxt -d "$keyed"
    ask /clerks/4/nothing
    ask /clerks/4/nothing -u 4:kf7m-2wxt
    ask /clerks/4/ -u 4:kf7m-2wxt -d "$keyed"
    ask /clerks/4/work -u 4:kf7m-2wxt -H 'Sec-Fetch-Site: cross-site'
    ask /wards/7/sheet
    look /clerks/4/
    look /clerks/4/ -u 4:kf7m-2wxt
    look /clerks/4/leave -u 4:kf7m-2wxt
    echo "forty wrong codes"
    for try in {1..40}; do curl --silent -u "9:wrong-$try-code" "http://127.0.0.1:$port/clerks/9/work" >/dev/null; done
    # the right one is accepted all the same
    ask /clerks/9/work -u 9:w3hd-4psn
}

# Has the office do an order, as its console does.
order() {
    ask /office/orders -u office:h4dn-p3cs-kf7m-2wxt -d "$1"
}

at_console() {
    ask /office/orders -d '{"files":{},"words":["wards"]}'
    ask /office/orders -u 4:kf7m-2wxt -d '{"files":{},"words":["wards"]}'
    order '{"files":{},"words":["batch","13","7","2","4","9","--id","b2"]}'
    # the same request, repeated, and another under its id
    order '{"files":{},"words":["batch","13","7","2","4","9","--id","b2"]}'
    order '{"files":{},"words":["batch","13","7","3","4","9","--id","b2"]}'
    order '{"files":{},"words":["candidate","7","4","Di","--id","c4"]}'
    # a script is read from what came with it, and from nothing else
    order '{"files":{"evening.txt":"batch 14 7 2 4 9 --id b3\nbatch 15 7 2 4 9 --id b4\n"},"words":["replay","evening.txt"]}'
    order '{"files":{},"words":["replay","codes.txt"]}'
    order '{"files":{},"words":["no","such","order"]}' | sed 's/"errors":".*","output"/"errors":"..","output"/'
    order '{"files":{},"words":["codes","more.txt","1-40"]}'
    # a copy is made next to the database, under a name of its own
    order '{"files":{},"words":["copy","evening.db"]}'
    order '{"files":{},"words":["copy","evening.db"]}'
    order '{"files":{},"words":["copy","../evening.db"]}'
    order '{"files":{},"words":["record"]}'
    order '{"words":["wards"]}'
    ask /office/orders -u office:h4dn-p3cs-kf7m-2wxt
    ask /office/nothing -u office:h4dn-p3cs-kf7m-2wxt
    look /office/
    look /office/ -u 4:kf7m-2wxt
    look /office/ -u office:h4dn-p3cs-kf7m-2wxt
    look /office/leave -u office:h4dn-p3cs-kf7m-2wxt
}

# Each clerk reads an own keying of an earlier round, and no other.
read_again() {
    ask /clerks/4/batches/12/keyed -u 4:kf7m-2wxt
    ask /clerks/4/batches/16/keyed -u 4:kf7m-2wxt
    play town.db key 9 12 1 1,,2 D --id k1
    play town.db again 12 --id r1
    ask /clerks/4/batches/12/keyed -u 4:kf7m-2wxt
    ask /clerks/9/batches/12/keyed -u 9:w3hd-4psn
    ask /clerks/9/batches/12/keyed -u 4:kf7m-2wxt
}

{
    play town.db init
    play town.db ward 7 2 Harbour --id w1
    play town.db candidate 7 1 Ann --id c1
    play town.db candidate 7 2 Bob --id c2
    play town.db candidate 7 3 Cy --id c3
    play town.db close 7 --id n1
    play town.db batch 12 7 2 4 9 --id b1

    # a new file: a line a clerk, for its owner alone; the codes are others each time
    play town.db codes made.txt 1-40
    stat --format '%a' "$folder/made.txt"
    sed 's/[a-z2-7]\{4\}-[a-z2-7]\{4\}-[a-z2-7]\{4\}$/CODE/' "$folder/made.txt" | sed -n '1p;$p'
    sort -k 2 -u "$folder/made.txt" | wc -l
    # a second file has no code of the first
    play town.db codes second.txt 1-40
    sed 's/.* //' "$folder/made.txt" "$folder/second.txt" | sort | uniq -d | wc -l
    # what is there is left
    play town.db codes made.txt 1-40
    # with a code for the office, which is longer, in a last line
    play town.db codes office.txt 4-5 --office
    sed 's/\(-\{0,1\}[a-z2-7]\{4\}\)\{4\}$/LONG CODE/; s/\(-\{0,1\}[a-z2-7]\{4\}\)\{3\}$/CODE/' "$folder/office.txt"
    stat --format '%a' "$folder/office.txt"
    # it needs no database
    play nothing.db codes other.txt 4-4
    play town.db codes more.txt 40-1
    play town.db codes more.txt 40
    play town.db codes more.txt 1-1000
    play town.db codes nowhere/more.txt 1-40

    # files that aren't taken
    refuse 644 '4 kf7m-2wxt\n'
    refuse 640 '4 kf7m-2wxt\n'
    refuse 600 'kf7m-2wxt\n'
    refuse 600 '4 kf7m-2wxt\n\n04 w3hd-4psn\n'
    refuse 600 '4 kf7m-2wxt\r\n9 short\r\n'
    refuse 600 '4 kf7m-2wxt\n4 w3hd-4psn\n'
    refuse 600 '4 kf7m-2wxt\n9 kf7m-2wxt\n'
    refuse 600 'office h4dn-p3cs-kf7m-2wxt\n4 kf7m-2wxt\noffice w3hd-4psn-kf7m-2wxt\n'
    refuse 600 '4 kf7m-2wxt\noffice w3hd-4psn-h4dn\n'
    refuse 600 '4 h4dn-p3cs-kf7m-2wxt\noffice h4dn-p3cs-kf7m-2wxt\n'
    play town.db serve "$port" 1 --codes missing.txt | sed "s/ $port / PORT /"
    play town.db serve "$port" 1 --codes . | sed "s/ $port / PORT /"

    (umask 077 && printf '4 kf7m-2wxt\n9 w3hd-4psn\noffice h4dn-p3cs-kf7m-2wxt\n' >"$folder/codes.txt")
    serve let_in at_console read_again
    play evening.db batches 7
    (cd "$folder" && printf '%s\n' ./*.db)
} >"$folder/played" 2>&1

compare codes
