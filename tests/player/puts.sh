# shellcheck shell=sh
# shellcheck disable=SC2154
# The part of tests/player.sh about puts, which reads it: what a put makes of store and book, what can be handed in and what not,
# storage indexes that changed, two puts at once, each step failed and cut, and programs that are killed at many moments.
hub=$room/f/store
puts=0 kills=0

# A put that ends well: the store then is this file, and the book has its elements.
hand_in() { # SAME WORDS-TO-FIND WORDS..: the last two words are store and book
    same=$1 find=$2
    shift 2
    player 0 "$find" "$@"
    cmp "$same" "$hub" || fail "player $*: the store is not $same"
    grep -q '; wanted left 0$' "$room/out" || fail "player $*: the book lacks elements of the store"
    same_elements "$hub" "$book"
    puts=$((puts + 1))
}

# A put that is refused or cannot be saved: its status and its message, the store as it was, and these files and no other.
stays_out() { # STATUS MESSAGE FILES WORDS..
    cp "$hub" "$room/before"
    fault "$@"
    cmp "$room/before" "$hub" || fail "a put that ends with the status $1 changes the store"
}

# ---- one element replaced and one new, from a package, from bytes without one, and from folders
guid=2f1661bb3255d44b988bc687b9a9858d # of ids in the sample
spelled 0c56 54 $guid 80 4b*16 0700000000000000 0b 05 >"$room/new.element" # 10, with a serial number that it does not keep
spelled 0c26 4c $guid 00 07 5822 0c 89c30d4d665e6e4d88c45271d5b48027 05 >"$room/replaced.element" # 9, with a null one
{ spelled ac0200 && cat "$room/new.element" "$room/replaced.element" && spelled 55; } >"$room/changes"
{ spelled ae00feff 0600 00 && cat "$room/new.element" "$room/replaced.element" && spelled 55; } >"$room/changes.padded"
{ spelled ac02ff && cat "$room/new.element" "$room/replaced.element" && spelled 5700; } >"$room/changes.long"
cat "$room/new.element" "$room/replaced.element" >"$room/changes.plain"
mkdir "$room/folder" "$room/folder.mixed" "$room/folder.none"
cp "$room/new.element" "$room/folder/1"
cp "$room/replaced.element" "$room/folder/10"
printf 'no element' >"$room/folder/.hidden"
{ spelled ac0200 && cat "$room/new.element" && spelled 55; } >"$room/folder.mixed/A"
cp "$room/replaced.element" "$room/folder.mixed/a"
# The store as it must be then, from a program that was written from the documents by itself.
expected=tests/player/put.store
in_row_order $expected "$room/expected.book"
for changes in changes changes.padded changes.long changes.plain folder folder.mixed; do
    fresh
    cp "$whole" "$hub"
    hand_in $expected 'put 1: taken, elements 2, replaced 1, new 1, answer 160 bytes; store: elements 12, bytes 1802' \
        --put "$room/$changes" "$hub" "$book"
    left=$(cd "$room/f" && printf '%s ' *)
    [ "$left" = 'book book.knowledge store store.lock ' ] || fail "a put leaves '$left' in the folder"
    forget
    talk 1 12 "$room/expected.book" "$hub" "$book"
done
fresh
cp "$whole" "$hub"
prints put.txt 0 --put "$room/changes" --limit 400 --answer-bytes 0 --ask-bytes 0 "$hub" "$book"
cmp $expected "$hub" || fail 'a put with buffers of no bytes makes another store'
same_elements "$hub" "$book"
# With an old book: what the put's answer knows is not taken for what the book has.
for limit in 0 300; do
    put "$room/early" "$room/early.knowledge"
    cp "$whole" "$hub"
    hand_in $expected 'book: elements 12, bytes 1802,' --put "$room/changes" --limit $limit --quiet "$hub" "$book"
done
# The same again: both are replaced, with newer serial numbers.
hand_in "$hub" 'put 1: taken, elements 2, replaced 2, new 0, answer 160 bytes; store: elements 12, bytes 1802' \
    --put "$room/changes" "$hub" "$book"
player 0 'id 10 of 2f1661bb3255d44b988bc687b9a9858d, serial 3 of 00112233445566778899aabbccddeeff, type 5' --dump "$hub"
player 0 'id 9 of 2f1661bb3255d44b988bc687b9a9858d, serial 4 of 00112233445566778899aabbccddeeff, type 3' --dump "$hub"
# With filters: what they put out enters, and comes without them.
fresh
cp "$whole" "$hub"
player 0 'book: elements 4, bytes 654, ranges 3; wanted left 8' --put "$room/changes" --filters "$room/not5" "$hub" "$book"
hand_in "$hub" 'new 8; book: elements 12, bytes 1802,' --limit 400 "$hub" "$book"
# An answer that is longer than the new store: the buffer for the store grows once more than it need, and then the answer's.
fresh
cp "$room/none" "$hub"
player 0 'the buffer for the new store grows from 4 to the 50 bytes' --put "$room/new.element" --answer-bytes 0 "$hub" "$book"
grep -q 'the buffer for the new store grows from 50 to the 80 bytes' "$room/out" || fail 'no second length is told'
grep -q 'the buffer for the answer grows from 0 to the 80 bytes' "$room/out" || fail 'no third length is told'
cmp "$hub" "$book" || fail 'a put with an answer that is longer than the store makes another book'
# Another GUID of the hub.
fresh
cp "$room/three" "$hub"
{
    head -c 141 "$room/three"
    spelled 0c56 54 $guid 80 f0*15 f1 0100000000000000 0b 05 0c56 4c $guid 80 f0*15 f1 0200000000000000 07
    spelled 5822 0c 89c30d4d665e6e4d88c45271d5b48027 05 55
} >"$room/new"
hand_in "$room/new" 'new 5; book: elements 5,' --put "$room/changes" --guid F0F0F0F0F0F0F0F0F0F0F0F0F0F0F0f1 --quiet "$hub" "$book"
# A whole store into an empty one, in which there is no storage index yet; and into a full one, whose elements are replaced.
fresh
cp "$room/none" "$hub"
player 0 'put 1: taken, elements 11, replaced 0, new 11,' --put "$whole" --guid 372d910580b3d44a8ebe9dea850fd5c3 "$hub" "$book"
grep -q '^put 1: .*, expects no storage index$' "$room/out" || fail 'a put expects a storage index that no store has'
in_row_order "$hub" "$room/hub.ordered"
cmp "$room/hub.ordered" "$book" || fail 'a book that began with an empty store has other elements than the store, or not by rank'
fresh
cp "$room/most" "$hub"
player 0 'put 1: taken, elements 256, replaced 256, new 0,' --put "$room/most" "$hub" "$book"
cmp "$hub" "$book" || fail 'a book of 256 elements that were replaced is another than the store'
puts=$((puts + 3))

# ---- nothing at all is handed in: the elements stay, and the package around them is written anew
for changes in "$room/none" "$room/empty" "$room/folder.none"; do
    fresh
    cp "$whole" "$hub"
    hand_in "$whole" 'put 1: taken, elements 0, replaced 0, new 0,' --put "$changes" "$hub" "$book"
    cp "$room/padded" "$hub"
    forget
    hand_in "$room/padded.plain" 'put 1: taken, elements 0, replaced 0, new 0,' --put "$changes" "$hub" "$book"
done

# ---- what cannot be handed in: the file and the place in it are told before anything is asked or written
fresh
cp "$whole" "$hub"
refused='it cannot be handed in: refused'
stays_out 5 "$room/padded: $refused 3 at place 11 $no_padding" 'store ' --put "$room/padded" "$hub" "$book"
stays_out 5 "$room/padded.index: $refused 3 at place 44 $no_padding" 'store ' --put "$room/padded.index" "$hub" "$book"
cp "$room/padded.index" "$room/folder/2"
stays_out 5 "$room/folder/2: $refused 3 at place 44 $no_padding" 'store ' --put "$room/folder" "$hub" "$book"
cp "$room/new.element" "$room/folder/2" # between 10 and 2 of the order: the same id twice
stays_out 5 "$room/folder/2: $refused 11 at place 2 " 'store ' --put "$room/folder" "$hub" "$book"
rm "$room/folder/2"
{ spelled ac0200 && cat "$room/new.element" "$room/new.element" && spelled 55; } >"$room/twice"
stays_out 5 "$room/twice: $refused 11 at place 51 " 'store ' --put "$room/twice" "$hub" "$book"
stays_out 5 "$sample/first.request: $refused 2 at place 2 " 'store ' --put "$sample/first.request" "$hub" "$book"
printf '\254' >"$room/half"
stays_out 5 "$room/half: $refused 2 at place 0 " 'store ' --put "$room/half" "$hub" "$book"
for package in ac0200 ac020055aa ac02005701 ac0400000055; do
    spelled $package >"$room/half"
    stays_out 5 "$room/half: it begins as a package and is none" 'store ' --put "$room/half" "$hub" "$book"
done
stays_out 3 "$room/absent: it cannot be opened: No such file" 'store ' --put "$room/absent" "$hub" "$book"
mkdir "$room/folder/2"
stays_out 3 "$room/folder/2: it cannot be read: Is a directory" 'store ' --put "$room/folder" "$hub" "$book"
rmdir "$room/folder/2"
stays_out 4 "$room/large: it is too large: over 16777216 bytes" 'store ' --put "$room/large" "$hub" "$book"
# 16,776,162 bytes of elements, twice; and with so many more that the put has two bytes too many, or is as long as it may be and too
# long with a storage index in it.
mkdir "$room/folder.large"
cp "$room/wide" "$room/folder.large/1"
cp "$room/wide" "$room/folder.large/2"
stays_out 4 "$room/folder.large/2: with what stands before it, it is too large" 'store ' --put "$room/folder.large" "$hub" "$book"
elements 22 1 7 >"$room/folder.large/2"
stays_out 4 "$room/folder.large/1: it is too large: a put with it would have over 16777216 bytes" 'store ' \
    --put "$room/folder.large" "$hub" "$book"
elements 21 1 7 >"$room/folder.large/2"
spelled 0c26 fc 1d*16 00 0b 05 0c26 fc 1e*16 00 0b 05 >"$room/folder.large/3"
stays_out 4 'put 1: hub_ask_put refuses: 1, input 0, place 0' 'book book.knowledge store ' --put "$room/folder.large" "$hub" "$book"
# Too much for one store: a 257th element; 16,777,216 bytes. No serial number left: but with another GUID.
fresh
cp "$room/most" "$hub"
stays_out 11 'put 1: hub_put refuses: 9, input 0, place 0' 'book book.knowledge store store.lock ' --put "$room/one" "$hub" "$book"
fresh
cp "$room/wide" "$hub"
stays_out 11 'put 1: hub_put refuses: 1, input 0, place 0' 'book book.knowledge store store.lock ' --put "$whole" "$hub" "$book"
fresh
spelled ac0200 0c56 0c 1d*16 80 00112233445566778899aabbccddeeff ff*8 0b 05 55 >"$hub"
stays_out 7 'put 1: hub_put refuses: 16, input 0, place 0' 'book book.knowledge store store.lock ' --put "$room/changes" "$hub" "$book"
hand_in "$hub" 'new 2; book: elements 3,' --put "$room/changes" --guid ffffffffffffffffffffffffffffffff "$hub" "$book"
# Words that do not go together, and files that are read and written at once.
fresh
cp "$whole" "$hub"
fault 2 'a talk needs a store and a book' 'store ' --put "$room/changes" "$hub"
fault 2 'only one of --put, --hostile, --dump and --replay' 'store ' --put "$room/changes" --put "$room/changes" "$hub" "$book"
fault 2 '--stop-after: it has no use with what else is asked for' 'store ' --put "$room/changes" --stop-after 1 "$hub" "$book"
fault 2 '--guid: it has no use with what else is asked for' 'store ' --guid 00112233445566778899aabbccddeeff "$hub" "$book"
for word in '' 00112233445566778899aabbccddee 00112233445566778899aabbccddeeff00 0x112233445566778899aabbccddeeff; do
    fault 2 '--guid: it takes sixteen bytes in hex' 'store ' --put "$room/changes" --guid "$word" "$hub" "$book"
done
read_and_written='it is to be read, and is a file that the talk writes'
fault 2 "$hub: $read_and_written" 'store ' --put "$hub" "$hub" "$book"
fault 2 "$hub.new: $read_and_written" 'store ' --put "$hub.new" "$hub" "$book"
fault 2 "$hub.lock: $read_and_written" 'store ' --put "$room/changes" --filters "$hub.lock" "$hub" "$book"
fault 2 "$book.new: $read_and_written" 'store ' --put "$book.new" "$hub" "$book"
fault 2 "$hub: $read_and_written" 'store ' --put "$room/changes" "$hub" "$hub"
for ending in .new .lock; do
    fault 2 "$hub$ending: it is to be the book, and is a file that is written beside the store" 'store ' \
        --put "$room/changes" "$hub" "$hub$ending"
done
cmp "$whole" "$hub" || fail 'a put that is none changes the store'

# ---- a store that cannot be written
put "$ordered" "$room/whole.knowledge"
cp "$whole" "$hub"
mkdir "$hub.new"
stays_out 9 "$hub.new: it cannot be opened to be written" 'book book.knowledge store store.lock store.new ' \
    --put "$room/changes" "$hub" "$book"
rmdir "$hub.new"
runner=$room/narrow
stays_out 9 "$hub.new: it cannot be written: " 'book book.knowledge store store.lock ' --put "$room/changes" "$hub" "$book"
runner=tools/run
rm "$hub.lock"
mkdir "$hub.lock"
stays_out 9 "$hub.lock: it cannot be locked: Is a directory" 'book book.knowledge store store.lock ' \
    --put "$room/changes" "$hub" "$book"

# ---- a lock that another program has is waited for, and the store is read behind it
sh tools/cc "$room/holder" tests/holds_lock.c player/lock.c player/files.c player/bytes.c || fail 'tests/holds_lock.c is not compiled'
# Waits until a file has these words. What was said there before does not count: who says it anew has the file taken away first.
await() { # FILE WORDS
    turns=0
    until grep -Fq -e "$2" "$1" 2>/dev/null; do
        turns=$((turns + 1))
        [ $turns -le 600 ] || { cat "$1"; fail "$1 does not come to have '$2'"; }
        sleep 0.05 2>/dev/null || sleep 1
    done
}
hold() {
    rm -f "$room/held"
    sh tools/run "$room/holder" "$hub" >"$room/held" 2>&1 &
    holder=$!
    await "$room/held" 'the lock is held'
}
let_go() { # by its end, whatever it is: no lock outlives its program
    kill -9 "$holder"
    { wait "$holder"; } 2>/dev/null
}
waiting() { # NAME WORDS..: starts a put, and waits until it waits for the lock
    name=$1
    shift
    rm -f "$room/out.$name"
    sh "$runner" "$program" "$@" >"$room/out.$name" 2>&1 &
    eval "put_$name=\$!"
    await "$room/out.$name" "another program has $hub.lock: it is waited for"
}
ended_well() { # NAME
    eval "wait \"\$put_$1\"" || { cat "$room/out.$1"; fail "put $1, which waited, does not end well"; }
}

# Four puts at once, each with a book of its own: what each hands in is in the store, none twice.
fresh
cp "$whole" "$hub"
hold
for n in 1 2 3 4; do
    elements 1 $n 1 >"$room/one.$n"
    waiting $n --put "$room/one.$n" "$hub" "$book.$n"
done
cmp "$whole" "$hub" || fail 'a put that waits for the lock has changed the store'
let_go
for n in 1 2 3 4; do
    ended_well $n
done
player 0 'takes it as a store' --dump "$hub"
for n in 1 2 3 4; do
    grep -q "id $n of 1d1d1d1d1d1d1d1d1d1d1d1d1d1d1d1d, serial [1-4] of 00112233445566778899aabbccddeeff" "$room/out" ||
        fail "of four puts at once number $n is not in the store"
done
for n in 1 2 3 4; do
    player 0 'elements 15, bytes 1940, ranges 4; wanted left 0' "$hub" "$book.$n"
    same_elements "$hub" "$book.$n"
    puts=$((puts + 1))
done

# The store gets another storage index between ask and put: it is asked first, and put again.
{ spelled ac0200 && cat "$room/padded.zero" && spelled 0c56 14 1d*16 80 4b*16 0800000000000000 03 05 55; } >"$room/indexed"
fresh
cp "$room/none" "$hub"
hold
waiting again --put "$room/changes" "$hub" "$book"
cp "$room/indexed" "$room/f/other"
mv "$room/f/other" "$hub"
let_go
ended_well again
sed -e "s|$room|ROOM|g" "$room/out.again" >"$room/printed"
cmp "$room/printed" tests/player/put-again.txt ||
    { diff tests/player/put-again.txt "$room/printed"; fail 'a put that meets another storage index prints other text'; }
same_elements "$hub" "$book"
puts=$((puts + 1)) printed=$((printed + 1))
# The same with an index that was there, and is there no more.
cp "$room/indexed" "$hub"
forget
hold
waiting again --put "$room/changes" "$hub" "$book"
cp "$room/none" "$room/f/other"
mv "$room/f/other" "$hub"
let_go
ended_well again
grep -Fq 'put 2: 131 bytes, elements of 87 bytes, expects no storage index' "$room/out.again" ||
    { cat "$room/out.again"; fail 'a put does not expect what the last answer told'; }
player 0 'elements 2, bytes 115;' "$hub" "$room/f/other"
puts=$((puts + 1))

# ---- a hub that lies: it is asked and put three times at most, what is no store is not saved, and another answer is told
# shellcheck disable=SC2046
sh tools/cc "$room/false" tests/false_puts.c $(printf '%s\n' player/*.c | grep -v -e /put.c) "$archive" ||
    fail 'tests/false_puts.c is not compiled and linked'
program=$room/false
lie_in_put() { # LIE STATUS MESSAGE: whether it stays out
    fresh
    cp "$whole" "$hub"
    export LIE="$1"
    stays_out "$2" "$3" 'book book.knowledge store store.lock ' --put "$room/changes" "$hub" "$book"
    unset LIE
}
lie_in_put index 7 'after each of 3 asks the store had another storage index; nothing entered'
[ "$(grep -c '^answer [1-3]: [0-9]* bytes' "$room/out")" = 3 ] || fail 'it is not asked before each put'
lie_in_put store 7 'the new store would be none; it is not written'
lie_in_put room 7 'hub_put refuses: 14'
for lie in id unread; do
    case $lie in id) message='the answer is to another put, with the id 9' ;; *) message='hub_read_put refuses: 7, input 0, place 0' ;; esac
    fresh
    cp "$whole" "$hub"
    export LIE=$lie
    fault 7 "put 1: $message" 'book book.knowledge store store.lock ' --put "$room/changes" "$hub" "$book"
    unset LIE
    cmp $expected "$hub" || fail 'what entered is not there, as the answer to it was spoiled'
done
program=$room/player

# ---- dumps of a put and of the answer to it, as they are and with a fault behind the type: a padded number in an element, and a
# status byte by which the hub says that it failed
put_front='0c000b009ccf29f33994069b 06020000 ee020000 7701 16020600 030b00'
{
    # shellcheck disable=SC2086
    spelled $put_front d2022600 00 0c f8ddbf1efa64e74ea5db61447e8a8cc1 00 0b01
    cat "$room/changes"
    spelled 0301
} >"$room/put"
prints dump-put.txt 0 --dump "$room/put"
{
    # shellcheck disable=SC2086
    spelled $put_front d2020600 000000 32040600 000000 2a042000 1d*16 8400 41 52040200 00 0b01 ac0200
    cat "$room/padded.index"
    spelled 55 0301
} >"$room/put"
prints dump-put-padded.txt 5 --dump "$room/put"
spelled 0c000b009dcf29f33994069b 16030200 00 ac020055 0e020600 030b00 8400 26022000 f6357a3261071444968651e900667a4d a400 \
    7824 4b*16 03 05 51130141 07018b01 >"$room/put.answer"
prints dump-put-answer.txt 0 --dump "$room/put.answer"
changed "$room/put.answer" 27 001 >"$room/changed"
player 5 'the library refuses it as an answer to a put: 5 at place 27 ' --dump "$room/changed"

# ---- saving, step by step, behind a book that has what the store has: first the store, and then the book
program=$room/failing
{
    printf '%s\n' '1 unlink store.new' '2 make store.new' '3 write store.new' '4 flush store.new' '5 to disk store.new' \
        '6 close store.new' '7 rename store' '8 to disk folder'
    awk '{ $1 += 8; print }' "$room/order"
} >"$room/put.order"
begin_again() {
    put "$ordered" "$room/whole.knowledge"
    cp "$whole" "$hub"
}
begin_again
export STEPS="$room/put.steps"
hand_in $expected 'new 2; book: elements 12,' --put "$room/changes" "$hub" "$book"
unset STEPS
cmp "$room/put.steps" "$room/put.order" || { cat "$room/put.steps"; fail 'a put is saved by other steps, or in another order'; }
# Whether the store is the old one up to the step before which it takes its name, and then the new one; and what comes of it: the next
# talk brings what entered, the next put enters. Nothing is left aside.
judged() { # STEP WHAT
    if [ "$1" -le 7 ]; then old_or_new=$whole; else old_or_new=$expected; fi
    cmp "$old_or_new" "$hub" || fail "after step $1, $2, the store is not $old_or_new"
    player 0 'wanted left 0' "$hub" "$book"
    same_elements "$hub" "$book"
    player 0 'book: elements 12, bytes 1802,' --put "$room/changes" "$hub" "$book"
    same_elements "$hub" "$book"
    left=$(cd "$room/f" && printf '%s ' *)
    [ "$left" = 'book book.knowledge store store.lock ' ] || fail "step $1, $2, leaves '$left' for good"
    puts=$((puts + 1))
}
step=0
while [ $((step += 1)) -le 24 ]; do
    begin_again
    export FAIL_AT=$step
    case $step in
    8 | 22 | 24) player 0 'done: ' --put "$room/changes" "$hub" "$book" ;; # a folder may refuse
    *) fault 9 ': Input/output error' 'book book.knowledge store store.lock ' --put "$room/changes" "$hub" "$book" ;;
    esac
    unset FAIL_AT
    judged $step 'which failed'
    begin_again
    export CUT_AT=$step
    player 99 'the power goes' --put "$room/changes" "$hub" "$book"
    unset CUT_AT
    judged $step 'before which the power went'
done
program=$room/player

# ---- killed at many moments, the first right at its start and the last behind its end: the store is the old or the new one, and the
# next talk brings the book to it
{ spelled ac0200 && wide_element 1 && spelled 55; } >"$room/killed.old"
fresh
cp "$room/killed.old" "$hub"
player 0 'done: ' "$hub" "$book"
cp "$book.knowledge" "$room/killed.knowledge"
player 0 'done: ' --put "$room/changes" "$hub" "$book"
cp "$hub" "$room/killed.new"
cp "$book" "$room/killed.book" # behind what it had, what entered, by rank
same_elements "$hub" "$book"
moment=1 ended=0
while [ $ended = 0 ]; do
    put "$room/killed.old" "$room/killed.knowledge"
    cp "$room/killed.old" "$hub"
    sh "$runner" "$program" --put "$room/changes" "$hub" "$book" >"$room/out.killed" 2>&1 &
    killed=$!
    turns=0
    while [ $((turns += 1)) -lt $moment ]; do :; done
    kill -9 $killed 2>/dev/null
    { wait $killed; } 2>/dev/null
    case $? in
    0) ended=1 ;;
    137) ;;
    *) cat "$room/out.killed"; fail "a put that is killed after $moment turns ends otherwise" ;;
    esac
    if cmp -s "$room/killed.old" "$hub"; then awaited_book=$room/killed.old; else awaited_book=$room/killed.book; fi
    cmp -s "$room/killed.old" "$hub" || cmp -s "$room/killed.new" "$hub" ||
        fail "a put that is killed after $moment turns leaves a store that is neither the old nor the new one"
    player 0 'wanted left 0' "$hub" "$book"
    cmp "$awaited_book" "$book" || fail "behind a put that was killed after $moment turns the book has not what the store has"
    kills=$((kills + 1)) moment=$((moment + moment / 3 + 50))
done
