# shellcheck shell=sh
# shellcheck disable=SC2154
# The part of tests/player.sh about books that are in step with a store or not, which reads it behind the other parts: what --check
# tells, its statuses, and that it writes nothing.
checks=0

# What is told at last, and that no file of the folder is another one afterwards.
checked() { # STATUS WORDS-TO-FIND STORE
    before=$(cd "$room/f" && ls -i && cat ./* | cksum)
    player "$1" "$2" --check "$book" "$3"
    [ "$before" = "$(cd "$room/f" && ls -i && cat ./* | cksum)" ] || fail '--check changes a file'
    checks=$((checks + 1))
}
known='known, and lacking 0, with other bytes 0' coming='still to come, and lacking 0, with other bytes 0'

# ---- in step: behind a whole talk, one that was stopped, with a knowledge that is gone or does not count, and with an empty book
fresh
talk 1 11 "$ordered" "$whole" "$book"
checked 0 "in step: the same 11; $known; $coming; in the book alone 0" "$whole"
checked 0 "in step: the same 11; $known; $coming; in the book alone 0" "$ordered"
put "$room/early" "$room/early.knowledge"
checked 0 "in step: the same 4; $known; still to come, and lacking 7, with other bytes 0; in the book alone 0" "$whole"
[ "$(grep -c '^would still come: id ' "$room/out")" = 7 ] || fail 'it is not told which elements would still come'
put "$room/early" -
checked 0 "book $book: elements 4, bytes 654, and no knowledge" "$whole"
put "$room/early" "$room/late.knowledge"
checked 0 'and a knowledge that was not saved with this book and does not count' "$whole"
put "$room/none" -
checked 0 "in step: the same 0; $known; still to come, and lacking 11, with other bytes 0; in the book alone 0" "$whole"
checked 0 "in step: the same 0; $known; $coming; in the book alone 0" "$room/none"
# The cut between the two names leaves a book that is in step, as the old knowledge does not count.
put "$ordered" "$room/early.knowledge"
checked 0 "in step: the same 11; $known; $coming; in the book alone 0" "$whole"

# ---- behind a put: what entered would still come, one with an id that the book has with other bytes; then it has come, in its place
fresh
talk 1 11 "$ordered" "$whole" "$book"
checked 0 "in step: the same 10; $known; still to come, and lacking 1, with other bytes 1; in the book alone 0" $expected
grep -q "^would still come: id 10 of $guid\$" "$room/out" || fail 'it is not told that 10 would still come'
grep -q "^would still come, and the book has other bytes: id 9 of $guid\$" "$room/out" || fail 'it is not told that 9 is another'
player 0 'new 2; book: elements 12, bytes 1802,' $expected "$book"
checked 0 "in step: the same 12; $known; $coming; in the book alone 0" $expected
ids() { # FILE: of its elements, in their order
    player 0 'takes it as a store' --dump "$1"
    sed -n 's/.* element .*: id \([0-9]* of [0-9a-f]*\), .*/\1/p' "$room/out"
}
ids "$book" >"$room/ids"
{ ids "$ordered" && printf '10 of %s\n' $guid; } >"$room/ids.awaited"
[ "$(wc -l <"$room/ids" | tr -d ' ')" = 12 ] && cmp "$room/ids" "$room/ids.awaited" ||
    fail 'an element that comes again does not take the place of the one with its id, or a new one is not the last'

# ---- not in step: bytes that changed under a number that is known, a number that was given again, a group that gained a member
shared_store 1,7,5,0 2,8,5,0 4,9,5,0 >"$room/told"
shared_store 1,7,5,3 3,8,5,0 4,20,5,2 5,21,5,0 6,9,5,0 >"$room/went-on"
fresh
talk 1 3 "$room/told" "$room/told" "$book"
prints check.txt 13 --check "$book" "$room/went-on"
checked 13 'not in step: the same 0; known, and lacking 2, with other bytes 1; still to come, and lacking 1, with other bytes 1' \
    "$room/went-on"
rm "$book.knowledge" # with no knowledge everything would come again
checked 0 "in step: the same 0; $known; still to come, and lacking 3, with other bytes 2; in the book alone 1" "$room/went-on"
fresh
talk 1 1 "$room/part.1" "$room/part.1" "$book"
checked 13 'not in step: the same 1; known, and lacking 1, with other bytes 0;' "$room/parts"
fresh
talk 1 2 "$room/history" "$room/history" "$book"
checked 13 'known, and the book lacks it: id 3 of 1d1d1d1d1d1d1d1d1d1d1d1d1d1d1d1d' "$room/other-history"
grep -q '^in the book alone: id 2 of 1d1d1d1d1d1d1d1d1d1d1d1d1d1d1d1d$' "$room/out" || fail 'it is not told what the book alone has'

# ---- with filters: what they put out is not known, and would come without them. As many elements as there can be.
fresh
player 0 'wanted left 7' --filters "$room/not5" "$whole" "$book"
checked 0 "in step: the same 4; $known; still to come, and lacking 7, with other bytes 0; in the book alone 0" "$whole"
fresh
talk 256 256 "$room/most" "$room/most" "$book" --limit 0 --quiet
checked 0 "in step: the same 256; $known; $coming; in the book alone 0" "$room/most"

# ---- faults
fresh
fault 3 "$book: there is no such book" '* ' --check "$book" "$whole"
fault 2 '--check: it needs a book and a store' '* ' --check "$book"
fault 2 'a file too many' '* ' --check "$book" "$whole" "$whole"
fault 2 'a file too many' '* ' "$whole" "$book" --check "$book"
fault 2 '--limit: it has no use with what else is asked for' '* ' --limit 3 --check "$book" "$whole"
fault 2 'only one of --put, --hostile, --dump and --replay' '* ' --check "$book" --dump "$whole"
cp "$whole" "$book"
fault 3 "$room/absent: it cannot be opened: No such file" 'book ' --check "$book" "$room/absent"
fault 5 'it is no store: refused 5 at place 0' 'book ' --check "$book" $sample/first.request
cp "$sample/first.request" "$book"
fault 6 'the book is damaged' 'book ' --check "$book" "$whole"
