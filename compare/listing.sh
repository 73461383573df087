#!/bin/bash
# Runs every input of listing-sample (K.in) through the census listing, and compares what it prints with K.out.
here=$(dirname "$(readlink -f "${BASH_SOURCE[0]}")")
agreed=0
differed=0
for input in "$here"/listing-sample/*.in; do
    if "$here/../census" < "$input" | cmp -s - "${input%.in}.out"; then
        agreed=$((agreed + 1))
    else
        differed=$((differed + 1))
        echo "differs: $input"
    fi
done
echo "agreed $agreed, differed $differed"
test "$differed" -eq 0
