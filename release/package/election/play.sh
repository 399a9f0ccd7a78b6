#!/bin/sh
# Plays a small election in a folder of its own: ward 7 elects two of three candidates, and a sheet is checked at home.
set -eu
folder=$(mktemp -d)
cd "$folder"
printf 'ward,candidate,name\n7,1,Ann\n7,2,Bob\n7,3,Cy\n' >candidates.csv
printf 'paper,1,2,3\n1,1,2,\n2,,1,\n' >clerk4.csv
cp clerk4.csv clerk9.csv
office() {
    echo "\$ count-office $*"
    count-office "$@"
}
office town.db init
office town.db ward 7 2 Harbour --id w1
office town.db import-candidates candidates.csv --id c1
office town.db close 7 --id n1
office town.db batch 12 7 2 4 9 --id b1
office town.db import-keying 4 12 1 clerk4.csv --id k1
office town.db import-keying 9 12 1 clerk9.csv --id k1
office town.db seal 7 --id s1
office town.db advance 7 --id a1
office town.db sheet 7
office town.db declare 7 --id d1
office town.db result 7
count-office town.db ballots 7 >ballots.txt
count-office town.db sheet 7 >sheet.txt
office - check ballots.txt sheet.txt
echo "The office is $folder/town.db"
