# shellcheck shell=sh
# shellcheck disable=SC2154
# The part of tests/player.sh about elements that share a serial number, which reads it behind that about puts: talks over a store with
# groups, in several answers, stopped, cut and killed, under filters, with a put between; a book that has every member and replaces by
# ids alone; and what comes of a hub that parts a group, or gives a serial number again.

# ---- a store of eight elements in four groups, whose members have all ranks and stand apart

# An element with an id from 1 to 31, a serial number under 256 and a type under 64, and inside it so many bytes, under 64, in one object.
shared_element() { # ID SERIAL TYPE INSIDE
    spelled 0c56 "$(printf '%02x' $(($1 * 8 + 4)))" '1d*16' 80 '4b*16' "$(printf '%02x' "$2")" '00*7' "$(printf '%02x' $(($3 * 2 + 1)))"
    [ "$4" = 0 ] || spelled e8 "$(printf '%02x' $(($4 * 2)))" "$(printf '%02x' "$1")*$4"
    spelled 05
}
shared_store() { # ID,SERIAL,TYPE,INSIDE..
    spelled ac0200
    for element; do
        # shellcheck disable=SC2046
        shared_element $(printf '%s' "$element" | tr , ' ')
    done
    spelled 55
}
groups=$room/groups groups_book=$room/groups.book
shared_store 1,7,5,0 2,8,1,3 3,7,3,0 4,9,5,8 5,8,5,0 6,10,2,0 7,7,4,1 8,9,5,0 >"$groups"
# Row order is 2, 6, 3, 7, 1, 4, 5, 8: first the group of 2 with 5, then 6, then that of 3, and that of 4.
shared_store 2,8,1,3 5,8,5,0 6,10,2,0 3,7,3,0 7,7,4,1 1,7,5,0 4,9,5,8 8,9,5,0 >"$groups_book"
in_row_order "$groups" "$room/groups.ordered"
cmp "$room/groups.ordered" "$groups_book" || fail 'the order of groups is not the one that was written down'
fresh
prints groups.txt 0 --limit 250 --answer-bytes 350 "$groups" "$book"
cmp "$groups_book" "$book" || fail 'the book has not all members of all groups'

# ---- how many answers: a page has whole groups, of 97, 46, 141 and 102 bytes, and the first has no limit
for pair in 0:4 96:4 142:4 143:3 242:3 243:2 283:2 284:2 385:2 386:1 18446744073709551615:1; do
    fresh
    talk "${pair#*:}" 8 "$groups_book" "$groups" "$book" --limit "${pair%:*}"
    talk 1 0 "$groups_book" "$groups" "$book" --limit "${pair%:*}"
    talk 1 0 "$groups_book" "$groups_book" "$book" # the book is a store like any other
done
for offered in 0 250 300 400 500 16842752; do
    fresh
    player 0 'wanted left 0' --answer-bytes $offered --quiet "$groups" "$book"
    cmp "$groups_book" "$book" || fail "with $offered bytes offered the book has not all members of all groups"
    talks=$((talks + 1))
done
# The largest groups: 256 in one, in pairs, and two that do not fit into a book any more, of which then none is taken.
elements 256 32 1 256 >"$room/one-group"
elements 256 32 1 2 >"$room/pairs"
for pair in one-group:1 pairs:128; do
    fresh
    talk "${pair#*:}" 256 "$room/${pair%:*}" "$room/${pair%:*}" "$book" --limit 0 --quiet
    talk 1 0 "$room/${pair%:*}" "$room/${pair%:*}" "$book" --limit 0 --quiet
done
elements 255 32 1 >"$room/nearly"
elements 2 300 300 2 >"$room/two"
fresh
talk 1 255 "$room/nearly" "$room/nearly" "$book" --quiet --answer-bytes 16842752
fault 11 'the book is full: it has 256 elements' 'book book.knowledge ' "$room/two" "$book"
cmp "$room/nearly" "$book" || fail 'of a group that does not fit into the book a part is taken'

# ---- filters: who lets in one member gets the whole group, and what is left out comes without them
printf '3e 02 04 00 01 00 1f 01 3e 02 04 00 02 01 ba 02 02 00 09 1f 01\n' >"$room/only4" # type 4 alone: element 7
fresh
player 0 'done: answers 1, refused for room 0, elements 3 of 141 bytes, new 3; book: elements 3, bytes 145, ranges 1; wanted left 5' \
    --filters "$room/only4" --limit 0 "$groups" "$book"
player 0 'done: answers 3, refused for room 0, elements 5 of 245 bytes, new 5; book: elements 8,' --limit 0 "$groups" "$book"
same_elements "$groups" "$book"
talks=$((talks + 2))

# ---- stopped behind each answer, and knowledge or book gone: no member is lost
for answers in 1 2 3; do
    fresh
    player 0 "stopped: answers $answers," --limit 0 --stop-after $answers "$groups" "$book"
    cp "$book" "$room/groups.$answers"
    cp "$book.knowledge" "$room/groups.$answers.knowledge"
    player 0 'wanted left 0' --limit 0 "$groups" "$book"
    cmp "$groups_book" "$book" || fail "a talk that is stopped behind answer $answers loses a member of a group"
    put "$room/groups.$answers" -
    player 0 'wanted left 0' --limit 0 "$groups" "$book"
    cmp "$groups_book" "$book" || fail "without the knowledge behind answer $answers the book has not each member once"
    talks=$((talks + 2))
done

# ---- the power goes before each step of a save, and a talk is killed at many moments: the next one brings every member
program=$room/failing
for step in 1 2 3 4 5 6 7 8 9 10 11 12 13 14 15 16; do
    put "$room/groups.2" "$room/groups.2.knowledge"
    export CUT_AT=$step
    player 99 'the power goes' --limit 0 "$groups" "$book"
    unset CUT_AT
    player 0 'wanted left 0' --limit 0 "$groups" "$book"
    cmp "$groups_book" "$book" || fail "behind a cut before step $step the book has not every member"
    talks=$((talks + 1))
done
program=$room/player
moment=1 ended=0
while [ $ended = 0 ]; do
    fresh
    sh "$runner" "$program" --limit 0 "$groups" "$book" >"$room/out.killed" 2>&1 &
    killed=$!
    turns=0
    while [ $((turns += 1)) -lt $moment ]; do :; done
    kill -9 $killed 2>/dev/null
    { wait $killed; } 2>/dev/null
    case $? in
    0) ended=1 ;;
    137) ;;
    *) cat "$room/out.killed"; fail "a talk about groups that is killed after $moment turns ends otherwise" ;;
    esac
    player 0 'wanted left 0' "$groups" "$book"
    cmp "$groups_book" "$book" || fail "behind a talk that was killed after $moment turns the book has not every member"
    kills=$((kills + 1)) moment=$((moment + moment / 3 + 50))
done

# ---- a put into it: a member that is replaced leaves its group, in the store and in the book, and what is new has a number of its own
shared_element 3 7 3 5 >"$room/groups.changes"
shared_element 9 7 5 0 >>"$room/groups.changes" # with the number of a group, which it does not keep
fresh
cp "$groups" "$hub"
player 0 'put 1: taken, elements 2, replaced 1, new 1,' --limit 0 --put "$room/groups.changes" "$hub" "$book"
same_elements "$hub" "$book"
player 0 'id 3 of 1d1d1d1d1d1d1d1d1d1d1d1d1d1d1d1d, serial 1 of 00112233445566778899aabbccddeeff, type 3' --dump "$book"
player 0 'id 9 of 1d1d1d1d1d1d1d1d1d1d1d1d1d1d1d1d, serial 2 of 00112233445566778899aabbccddeeff, type 5' --dump "$book"
[ "$(grep -c 'serial 7 of 4b4b' "$room/out")" = 2 ] || fail 'the members that were not replaced are not in the book'
puts=$((puts + 1))

# ---- what no bench can see. A hub that parts a group: its second answer brings the other member only to a bench that does not know
# the serial number, and then both stand in the book.
shared_store 1,7,5,0 >"$room/part.1"
shared_store 2,7,5,0 >"$room/part.2"
shared_store 1,7,5,0 2,7,5,0 >"$room/parts"
fresh
talk 1 1 "$room/part.1" "$room/part.1" "$book"
player 0 'new 0; book: elements 1, bytes 50, ranges 1; wanted left 1' "$room/part.2" "$book"
rm "$book.knowledge"
talk 1 1 "$room/parts" "$room/part.2" "$book"
# A hub that was put back from a copy, and gave a number again, to another element: it never comes, until the knowledge is dropped.
shared_store 1,7,5,0 2,8,5,0 >"$room/history"
shared_store 1,7,5,0 3,8,5,0 >"$room/other-history"
fresh
talk 1 2 "$room/history" "$room/history" "$book"
player 0 'elements 0 of 0 bytes, new 0; book: elements 2, bytes 96, ranges 1; wanted left 1' "$room/other-history" "$book"
rm "$book.knowledge"
player 0 'new 1; book: elements 3, bytes 142, ranges 1; wanted left 0' "$room/other-history" "$book"
talks=$((talks + 3))

# ---- damaged requests about it
player 0 'no promise seen broken' --hostile 5 --times 200 --limit 0 --quiet "$groups"
