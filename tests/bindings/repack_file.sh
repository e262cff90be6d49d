# For tests/bindings/run, which reads it: `repacks COMMAND..` tries a program repack_file, in C or in Python, on archived files, on the longest
# ones, and on each thing that stops it. What it has to write and to print is typed here once, so they all write and print the same.
result=$build/result.bin
old=$build/archived.bin # a copy of the example, with a second name: a wrong program spoils nothing else
cp examples/archive/out.bin $old && ln $old $build/link.bin
# the slices of P1's transfer with two user bits to a byte; a record, and one with a reserved lane; 65,536 octets, and a record more
printf '\0\1\2\1\0\1\0\021\0\1\1\1\2\3\0\2\0\0\104\016' > $build/tagged.bin
printf '\0\1\2\3\0\3\0\021\042\0\1\2\1\0\3\0\021\042' > $build/reserved.bin
head -c 65536 /dev/zero > $build/longest.bin
head -c 65544 /dev/zero > $build/longer.bin
# 2,621 records of 16 items with a user bit each, which give the longest result
{ printf '\0\0\0\377\377\377\377' && head -c 18 /dev/zero; } > $build/record.bin
for twice in 1 2 3 4 5 6 7 8 9 10 11 12; do
    cat $build/record.bin $build/record.bin > $build/records.bin && mv $build/records.bin $build/record.bin
done
head -c 65525 $build/record.bin > $build/items.bin

# gives RECORDS OCTETS FILE WIDTH USER NEW_WIDTH: $program prints that number, and RESULT is these octets
gives() {
    records=$1 octets=$2
    shift 2
    rm -f $result
    printed=$($program "$@" $result 2>&1) && [ "$printed" = "records=$records" ] && [ -f $result ] &&
        [ "$(od -An -v -tx1 $result | tr -d ' \n')" = "$(echo "$octets" | tr -d ' ')" ]
    ok $? "$program $*: $records records, $octets (it prints: $printed)"
}

# stops STATUS TEXT ARGUMENT..: $program ends with that status and prints TEXT on standard error and nothing else, RESULT stays as it was,
# and where there was none, there is none
stops() {
    status=$1 text=$2
    shift 2
    echo "as it was" > $result
    printed=$($program "$@" 2>&1 > $build/stdout)
    [ $? -eq "$status" ] && [ "$printed" = "$text" ] && [ ! -s $build/stdout ] && [ "$(cat $result)" = "as it was" ] && rm $result &&
        ! $program "$@" > $build/stdout 2>&1 && [ ! -e $result ]
    ok $? "$program $*: status $status, $text (it prints: $printed)"
}

repacks() {
    program=$*
    # what urd_report gives on the example's take with mode=pack: 'the archived folder' in bindings/c/cases.c and bindings/python/cases.py
    gives 2 '01 01 02 07 00 05 00 11 00 44 00 01 01 02 0f 00 0f 00 21 22 23 24' $old 2 0 4
    gives 1 '01 01 02 07 00 05 00 11 00 44 00 39' $build/tagged.bin 2 2 4
    gives 0 '' $build/longest.bin 1 0 16
    [ "$($program $build/items.bin 16 1 1 $result)" = records=41936 ] && [ "$(wc -c < $result)" -eq 377424 ]
    ok $? "$program: the longest result"

    sheet="WIDTH and USER must be the old sheet's width_out and user (0 where it has no user=)"
    none="FILE is not transfer records of that WIDTH and USER, a take is none; $sheet"
    long="FILE has over 65,536 octets or no whole number of records; $sheet"
    stops 1 "refusal=1 at=0: WIDTH and NEW_WIDTH are byte lanes, 1 to 16" $old 17 0 4 $result
    stops 1 "refusal=1 at=0: WIDTH and NEW_WIDTH are byte lanes, 1 to 16" $old 2 0 0 $result
    stops 1 "refusal=16 at=0: USER is user bits to a byte, 0 to 4" $old 2 5 4 $result
    stops 1 "refusal=2 at=0: $long" $old 4 0 4 $result
    stops 1 "refusal=2 at=0: $long" $build/longer.bin 1 0 16 $result
    stops 1 "refusal=3 at=1: $none" examples/archive/take.bin 4 0 4 $result
    stops 1 "refusal=4 at=1: $none" $build/reserved.bin 2 0 4 $result

    for name in $old $build/./archived.bin $build/link.bin; do
        stops 2 "RESULT is FILE itself, which must not be overwritten" $old 2 0 4 $name
    done
    for name in $build/nothing.bin $build; do
        stops 2 "FILE can't be read" $name 2 0 4 $result
    done
    for name in $build/nothing/result.bin $build /dev/full; do
        stops 2 "RESULT can't be written, or not to its end" $old 2 0 4 $name
    done
    usage="usage: repack_file FILE WIDTH USER NEW_WIDTH RESULT"
    stops 2 "$usage"
    stops 2 "$usage" $old 2 0 4
    stops 2 "$usage" $old 2 0 4 $result $result
    for number in '' two -1 +2 ' 2' 2.0 100; do
        stops 2 "$usage" $old "$number" 0 4 $result
    done
    stops 2 "$usage" $old 2 none 4 $result
    stops 2 "$usage" $old 2 0 none $result
    cmp examples/archive/out.bin $old
    ok $? "$program: the archived file is as it was"
}
