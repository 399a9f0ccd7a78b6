#!/usr/bin/env bash
# Plays the check of sheets and declarations against ballots, and the count of ballots, by the program that needs no office.
# shellcheck source=examples/play.bash
source "$(dirname "$(readlink -f "${BASH_SOURCE[0]}")")/play.bash"

data=$here/../crates/check_count/data
cp "$data/ballots.txt" "$data/sheet.txt" "$folder"

# Plays the check of the sheet, changed by `sed`.
play_changed() {
    echo "changed: $*"
    sed "$@" "$folder/sheet.txt" >"$folder/changed.txt"
    play - check ballots.txt changed.txt
}

# Plays an order whose output takes nothing.
play_full() {
    local status=0
    echo "output full: \$ count-office $*"
    (cd "$folder" && "$office" "$@" >/dev/full 2>errors) || status=$?
    sed 's/^/error: /' "$folder/errors"
    echo "status $status"
}

# Plays the check of the sheet against the ballots, changed by `sed`.
play_ballots() {
    echo "changed ballots: $*"
    sed "$@" "$folder/ballots.txt" >"$folder/changed.txt"
    play - check changed.txt sheet.txt
}

# Plays an order whose standard input is a file.
play_input() {
    local file=$1
    shift
    echo "standard input: $file"
    play "$@" <"$folder/$file"
}

{
    play - check --help
    play - check ballots.txt sheet.txt
    printf 'Ward 7 Harbour\nElected\n 1 Ann\n 3 Cy\n' >"$folder/result.txt"
    play - check ballots.txt result.txt
    printf 'Ward 7 Harbour\nElected\n 1 Ann\n 2 Bob\n' >"$folder/result.txt"
    play - check ballots.txt result.txt

    # one figure by one unit, a line moved, a name, a line left out, a line more, no line end
    play_changed '12s/2.33332/2.33331/'
    play_changed -e '5{h;d}' -e '6G'
    play_changed '7s/Cy/Cyd/'
    play_changed '21d'
    play_changed '$a\ 9       0.00000 - Zoe'
    play_changed -z '$s/\n$//'
    play_changed 's/$/\r/'
    play_changed '1s/^/\xef\xbb\xbf/'
    play_changed -n '1,3p'

    # other ballots, rejected papers, and lots
    play_ballots '2s/4/5/'
    play_ballots 's/Rejected 1: 0/Rejected 1: 1/'
    play_ballots '$a# Lot at stage 2: 1'

    # comments of ours in another form or place, and others
    play_ballots 's/# Rejected 1: 0/#Rejected 1: 1/'
    play_ballots 's/# Rejected 1: 0/# rejected 1: 1/'
    play_ballots '10s/$/ # Rejected 1: 1, 2: 0, 3: 0, 4: 0, 5: 0/'
    play_ballots '1s/$/ # the ward of Harbour, its lots and papers/'

    # ballots as other programs write them, and what isn't understood
    play_ballots -e 's/$/\r/' -e '1s/^/\xef\xbb\xbf/'
    play_ballots -e '2s/.*/4 1 2 0 # a bundle\n/' -e '3s/0$/2=3 0/'
    play_ballots '3s/1 3/1 9/'
    play_ballots '3s/1 3/1 1/'
    play_ballots '4s/ 0$//'
    play_ballots '6d'
    play_ballots '7s/"$//'
    play_ballots -e '10s/Harbour/Harbour\x1b[2J\xc2\x9b2J\xe2\x80\xaee/'
    printf '3 1\n2 1 0\n1 2 0\n1 3 0\n0\n"Ann"\n"Bob"\n"Cy"\n"Harbour"\n' >"$folder/tied.txt"
    play - check tied.txt sheet.txt

    # words and files
    play - check
    play - check ballots.txt
    play - check ballots.txt sheet.txt more.txt
    play - check missing.txt sheet.txt
    play - check ballots.txt "$folder"

    # a folder: what isn't a page of all wards, a link and a folder in it, a file that the sums list as it was, and one that is missing
    # (examples/publish.sh checks folders that were published)
    mkdir -p "$folder/published/more"
    play - check published
    cp "$folder/ballots.txt" "$folder/published/ward-7-ballots.txt"
    echo 'page' >"$folder/published/index.html"
    ln -s ../sheet.txt "$folder/published/ward-7-sheet.txt"
    (cd "$folder/published" && sha256sum index.html ward-7-ballots.txt >SHA256SUMS)
    sed -i '2s/4/5/' "$folder/published/ward-7-ballots.txt"
    echo 'digest  check.html' >>"$folder/published/SHA256SUMS"
    play - check published
    play - check missing

    # ballots counted: each text, a lot that is needed, and lots that are added
    play - count --help
    play - count ballots.txt
    play - count ballots.txt --declaration
    play - count --table ballots.txt
    play - count --results ballots.txt
    play - count ballots.txt --ballots
    play - count tied.txt
    play - count tied.txt --declaration
    play - count tied.txt --lot 2:3
    play - count tied.txt --lot 2:3 --declaration
    play - count tied.txt --lot 2:3 --ballots
    play - count tied.txt --results
    play - count tied.txt --lot 2:3 --results
    (cd "$folder" && "$office" - count tied.txt --lot 2:3 --page --title 'Spring <1>' | grep -e '<title>' -e '"title"' -e Declared -e '<li>')
    play_input tied.txt - count - --lot 2:2 --declaration
    play_input sheet.txt - check ballots.txt -

    # what can't be counted
    play - count tied.txt --lot 2:1
    play - count tied.txt --lot 2:3 --lot 3:2
    play - count tied.txt --lot 2:3 --lot 2:3
    sed '3s/1 3/1 1/' "$folder/ballots.txt" >"$folder/changed.txt"
    play - count changed.txt
    play - count sheet.txt
    play - count missing.txt
    play - count
    play - count tied.txt sheet.txt
    play - count tied.txt --lots
    play - count tied.txt --page --table
    play - count tied.txt --lot
    play - count tied.txt --lot 2
    play - count tied.txt --lot 2:256
    play - count tied.txt --title Spring

    # cast-vote records, with a candidate in each column
    printf '%s\n' count,Ann,Bob,Cy 4,1,2, 2,1,,2 1,,1, 2,,,1 1,,2, >"$folder/records.csv"
    play - count records.csv --seats 2 --name Harbour
    play - count records.csv --seats 2 --name Harbour --ballots
    play - count records.csv --seats 2
    play - count records.csv --seats 16 --name Harbour
    play - count records.csv
    printf '%s\n' Ann,Bob 1,2 overvote,1 >"$folder/records.csv"
    play - count records.csv --seats 1 --name Harbour

    # the same with a rank in each column
    printf '%s\n' rank1,rank2 Ann,Bob 1,2 Cy, ,Ann Cy,2 >"$folder/records.csv"
    play - count records.csv --seats 1 --name Harbour
    play - count records.csv --seats 1 --name Harbour --candidate Ann --candidate Bob --candidate Cy
    play - count records.csv --seats 1 --name Harbour --candidate Ann --candidate Bob
    play - count records.csv --candidate Ann
    play - count records.csv --seats 1 --name Harbour --candidate ''

    # an output that fails
    play_full - check ballots.txt sheet.txt
    play_full - check --help
    play_full - count ballots.txt
    play_full - count tied.txt
} >"$folder/played"
sed -i "s|$folder|FOLDER|" "$folder/played"

compare checking
