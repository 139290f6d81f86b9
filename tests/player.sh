#!/bin/sh
# Tests of the player, the program that plays a bench and its hub: whole talks, also about a store with padded numbers, the storage
# index that comes first, talks that are cut, books and knowledges that do not belong together, each step of a save failed and cut,
# every exit status but 12, what it prints of dumps, damaged requests and stored cases, puts (tests/player/puts.sh), elements that
# share a serial number (tests/player/groups.sh), and books that are in step with a store or not (tests/player/check.sh). The archive is made if it is not there.
set -u
cd "$(dirname "$0")/.." || exit 1

fail() {
    printf 'tests/player.sh: FAILED: %s\n' "$*"
    exit 1
}

room=$(mktemp -d) || fail 'there is no room for temporary files'
trap 'rm -rf "$room"' EXIT
trap 'exit 1' HUP INT TERM
archive=target/staticlib/libhub.a
if [ ! -s "$archive" ]; then
    sh tools/archive >"$room/log" 2>&1 || { cat "$room/log"; fail 'tools/archive fails'; }
fi
sh tools/cc "$room/player" player/*.c "$archive" || fail 'player/ is not compiled and linked'
talks=0 faults=0

# ---- what is used in all of them

# Runs the program, which is to end with this status and to say these words somewhere.
program=$room/player
runner=tools/run
player() { # STATUS WORDS-TO-FIND WORDS..
    awaited=$1 find=$2
    shift 2
    sh "$runner" "$program" "$@" >"$room/out" 2>"$room/err"
    got=$?
    cat "$room/out" "$room/err" >"$room/both"
    if [ "$got" != "$awaited" ] || ! grep -Fq -e "$find" "$room/both"; then
        cat "$room/both"
        fail "player $*: status $got, not $awaited, or no '$find' in what it says"
    fi
}

# A talk that comes to its end: so many answers, so many new elements, and the book then is the same as a file.
talk() { # ANSWERS NEW SAME STORE BOOK OPTIONS..
    answers=$1 new=$2 same=$3 store=$4 book=$5
    shift 5
    player 0 'done: ' "$@" "$store" "$book"
    last=$(tail -n 1 "$room/out")
    case $last in
    "done: answers $answers, "*", new $new; "*) ;;
    *) fail "a talk with $store and $*: $answers answers and $new new elements awaited: $last" ;;
    esac
    cmp -s "$book" "$same" || fail "a talk with $store and $*: the book is not $same"
    talks=$((talks + 1))
}

# A fault: its status, its message, and a folder that has these files and no other.
fault() { # STATUS MESSAGE FILES WORDS..
    status=$1 message=$2 files=$3
    shift 3
    player "$status" "$message" "$@"
    [ -s "$room/err" ] || fail "player $*: no message on the error output"
    left=$(cd "$room/f" && printf '%s ' *)
    [ "$left" = "$files" ] || fail "player $*: the folder has '$left', not '$files'"
    faults=$((faults + 1))
}

# Whether two stores have the same elements, in whatever order: their dumps are compared by the lines, without places.
same_elements() { # STORE STORE
    for file; do
        player 0 'takes it as a store' --dump "$file"
        sed -e 1d -e 's/^..........//' "$room/out" | sort >"$room/sorted.$(basename "$file")"
    done
    cmp "$room/sorted.$(basename "$1")" "$room/sorted.$(basename "$2")" || fail "$1 and $2 have not the same elements"
}

# n elements of 46 bytes from an id and a serial number on, under ids of two bytes from 32 on; of so many behind one another each has
# the same serial number. printf takes bytes in octal.
elements() { # COUNT ID SERIAL [SHARE]
    printf '%b' "$(awk -v n="$1" -v id="$2" -v serial="$3" -v share="${4:-1}" '
        function byte(x) { printf "\\0%03o", x % 256 }
        function like(x, m) { while (m-- > 0) byte(x) }
        BEGIN {
            byte(172); byte(2); byte(0)
            for (i = 0; i < n; i++) {
                byte(12)
                if (id + i < 32) { byte(86); byte((id + i) * 8 + 4) }
                else { byte(88); byte((id + i) * 64 + 32); byte(int((id + i) / 4)) }
                like(29, 16); byte(128); like(75, 16)
                number = serial + int(i / share); byte(number); byte(int(number / 256)); like(0, 6)
                byte(11); byte(5)
            }
            byte(85)
        }')"
}

# The bytes that words spell in hex, `xx*n` for a byte n times.
spelled() { # WORDS..
    printf '%b' "$(printf '%s\n' "$@" | awk '
        function digit(c) { return index("0123456789abcdef", c) - 1 }
        { n = split($0, part, "*") == 2 ? part[2] : 1
          while (n-- > 0) for (i = 1; i < length(part[1]); i += 2)
              printf "\\0%03o", digit(substr(part[1], i, 1)) * 16 + digit(substr(part[1], i + 1, 1)) }')"
}

# One byte of a file put in place of another.
changed() { # FILE PLACE OCTAL
    dd if="$1" bs=1 count="$2" 2>/dev/null
    printf '%b' "\\0$3"
    tail -c "+$(($2 + 2))" "$1"
}

# What a talk about a store leaves in a new book: its elements by rank, which is the type from 1 to 4 and 5 for all others, and within
# a rank as the store has them; but those that share a serial number follow the first of them. Their places, types and serial numbers
# are those of the dump.
in_row_order() { # STORE ORDERED
    player 0 'takes it as a store' --dump "$1"
    spelled ac0200 >"$2"
    awk '/^ *[0-9]+    element / { place = $1; type = serial = $0; sub(/.*, type /, "", type); type += 0
            sub(/.*, serial /, "", serial); sub(/, type .*/, "", serial); gsub(/ /, "", serial) }
        /^ *[0-9]+    end of element/ { print (type >= 1 && type <= 4 ? type : 5), place, $1 + 1 - place, serial }' "$room/out" |
        sort -n -k 1,1 -k 2,2 | awk '{ if (!($4 in first)) first[$4] = NR; print first[$4], NR, $2, $3 }' |
        sort -n -k 1,1 -k 2,2 | while read -r _ _ place length; do
        tail -c "+$((place + 1))" "$1" | head -c "$length" >>"$2"
    done
    spelled 55 >>"$2"
}

fresh() { rm -rf "$room/f" && mkdir "$room/f"; }
forget() { rm -f "$room/f/book" "$room/f/book.knowledge"; }
book=$room/f/book
sample=player/sample
whole=$sample/book.store ordered=$room/ordered # the longest sample, and the book that has it
fresh

# ---- the sample is what it is said to be
sh $sample/make.sh "$room/f" || fail "$sample/make.sh fails"
for name in book.store manifests.store first.request first.answer; do
    cmp "$room/f/$name" "$sample/$name" || fail "$sample/$name is not what make.sh writes"
done

# ---- the order of a book: the storage index, which the sample has last, comes first
in_row_order "$whole" "$ordered"
player 0 'wanted left 0' "$whole" "$book"
cmp "$ordered" "$book" || fail 'the elements of the sample do not come by rank'
changed_places=$(cmp -l "$whole" "$ordered" | wc -l | tr -d ' ')
[ "$changed_places" -gt 1000 ] || fail 'the sample has its elements by rank itself, and tells nothing of the order'
for limit in 0 228 229 400; do
    fresh
    player 0 'answer 1: storage index 1 of f8ddbf1efa64e74ea5db61447e8a8cc1 has come' --limit $limit "$whole" "$book"
    [ "$(grep -c ' has come$' "$room/out")" = 1 ] || fail 'the storage index comes more than once'
    cmp "$ordered" "$book" || fail "under the limit $limit the elements of the sample do not come by rank"
    player 0 'page 0 of 0 bytes' --limit $limit "$whole" "$book"
    ! grep -q ' has come$' "$room/out" || fail 'it is told that the storage index comes, and nothing does'
done
printf '3e 02 04 00 02 00 ba 02 02 00 03 1f 01\n' >"$room/not1" # without it the next rank is first
fresh
player 0 'answer 1: 219 bytes, page 1 of 117 bytes, wanted left 10,' --limit 0 --filters "$room/not1" "$whole" "$book"
! grep -q ' has come$' "$room/out" || fail 'it is told that the storage index comes, which a filter leaves out'
player 0 'answer 1: storage index 1 of f8ddbf1efa64e74ea5db61447e8a8cc1 has come' "$whole" "$book"
talks=$((talks + 6))

# ---- document 01's three elements: how many answers, and that the book is the store
elements 3 1 7 >"$room/three"
[ "$(wc -c <"$room/three" | tr -d ' ')" = 142 ] || fail 'the store of three elements has not 142 bytes'
for pair in 0:3 46:3 91:3 92:2 137:2 138:1 18446744073709551615:1; do
    fresh
    talk "${pair#*:}" 3 "$room/three" "$room/three" "$book" --limit "${pair%:*}"
    talk 1 0 "$room/three" "$room/three" "$book" --limit "${pair%:*}"
done

# ---- what is offered shortens the pages, and the smallest one comes even if less is offered: of one element 132 bytes, of two 178
for pair in 0:3 131:3 132:3 177:3 178:2 223:2 224:1; do
    fresh
    talk "${pair#*:}" 3 "$room/three" "$room/three" "$book" --answer-bytes "${pair%:*}"
done

# ---- other stores, limits and buffers, down to none; each talk ends with the store's own elements, by rank
elements 0 1 1 >"$room/none"
elements 31 1 9 >"$room/more"
for store in "$room/none" "$room/three" "$room/more" $sample/manifests.store $sample/book.store; do
    in_row_order "$store" "$room/store.ordered"
    for options in '' '--limit 0' '--limit 200' '--limit 1000' '--answer-bytes 0 --ask-bytes 0' '--answer-bytes 400' \
        '--answer-bytes 16842752 --ask-bytes 16842752' '--limit 300 --answer-bytes 350 --ask-bytes 60 --quiet'; do
        fresh
        # shellcheck disable=SC2086
        player 0 'wanted left 0' $options "$store" "$book"
        cmp "$room/store.ordered" "$book" || fail "a talk about $store with '$options' leaves another book"
        talks=$((talks + 1))
    done
done

# ---- as many elements and answers as there can be
elements 256 32 1 >"$room/most"
fresh
talk 256 256 "$room/most" "$room/most" "$book" --limit 0 --quiet
talk 1 0 "$room/most" "$room/most" "$book" --limit 0 --quiet

# ---- nearly as many bytes as there can be: three elements, in each one object of 5,592,000 bytes under a 32-bit header
wide_element() { # ID, which is the serial number and what the object has too
    printf '%b' "\\0014\\0126\\0$(printf '%o' $(($1 * 8 + 4)))"
    printf '%016d\200%016d%b' 0 0 "\\0$1\\0\\0\\0\\0\\0\\0\\0"
    printf '\013\022\000\376\377\010\074\125\005'
    dd if=/dev/zero bs=5592000 count=1 2>/dev/null | tr '\000' "\\00$1"
    printf '\005'
}
{ printf '\254\002\000' && wide_element 1 && wide_element 2 && wide_element 3 && printf '\125'; } >"$room/wide"
[ "$(wc -c <"$room/wide" | tr -d ' ')" = 16776166 ] || fail 'the store of nearly 16 MiB has not 16776166 bytes'
fresh
talk 3 3 "$room/wide" "$room/wide" "$book" --limit 0
talk 1 0 "$room/wide" "$room/wide" "$book"

# ---- run again: one answer with nothing in it, and the files stay, not even written anew
fresh
talk 11 11 "$ordered" "$whole" "$book" --limit 0
before=$(cd "$room/f" && ls -i)
talk 1 0 "$ordered" "$whole" "$book"
[ "$before" = "$(cd "$room/f" && ls -i)" ] || fail 'a talk that brings nothing writes the book anew'

# ---- the umask decides the modes of what is saved, whatever modes were there before
modes() { # UMASK MODE NEW OPTIONS..
    mask=$1 mode=$2 new=$3 before=$(umask)
    shift 3
    umask "$mask"
    player 0 "new $new;" "$@" $sample/book.store "$book"
    umask "$before"
    for file in "$book" "$book.knowledge"; do
        got=$(ls -l "$file" | cut -c 1-10)
        [ "$got" = "$mode" ] || fail "with the umask $mask $file has the mode $got, not $mode"
    done
    talks=$((talks + 1))
}
fresh
modes 077 -rw------- 4 --limit 0 --stop-after 4
chmod 600 "$book" "$book.knowledge"
modes 022 -rw-r--r-- 1 --limit 0 --stop-after 1
modes 027 -rw-r----- 6

# ---- a talk that is stopped goes on where the book stands
fresh
player 0 'stopped: answers 4, refused for room 0, elements 4' --limit 0 --stop-after 4 $sample/book.store "$book"
cp "$book" "$room/early"
cp "$book.knowledge" "$room/early.knowledge"
talk 7 7 "$ordered" "$whole" "$book" --limit 0
cp "$book.knowledge" "$room/late.knowledge"

# ---- cuts: whatever pair is left, nothing is lost and nothing comes into the book twice
put() { # BOOK KNOWLEDGE, either of them - for none
    fresh
    [ "$1" = - ] || cp "$1" "$book"
    [ "$2" = - ] || cp "$2" "$book.knowledge"
}
put "$ordered" "$room/early.knowledge" # cut between the two names
talk 11 0 "$ordered" "$whole" "$book" --limit 0
put "$ordered" - # the knowledge is gone
talk 11 0 "$ordered" "$whole" "$book" --limit 0
put "$room/early" "$room/late.knowledge" # the names came to the disk in the other order, or the book is an old copy
talk 11 7 "$ordered" "$whole" "$book" --limit 0
put - "$room/late.knowledge" # the book is gone
talk 11 11 "$ordered" "$whole" "$book" --limit 0
put "$ordered" "$room/three" # that is no knowledge
talk 1 0 "$ordered" "$whole" "$book"
changed "$room/late.knowledge" 81 001 >"$room/changed" # a byte of the knowledge is damaged
put "$ordered" "$room/changed"
talk 1 0 "$ordered" "$whole" "$book"
fresh # stray files of a save that was cut
cp "$room/early" "$book"
cp "$room/early.knowledge" "$book.knowledge"
printf 'half' >"$book.new"
printf 'half' >"$book.knowledge.new"
talk 7 7 "$ordered" "$whole" "$book" --limit 0
[ "$(cd "$room/f" && printf '%s ' *)" = 'book book.knowledge ' ] || fail 'files of a save that was cut are left'

# ---- a byte of an element in the book is damaged, and the book still a store: the element comes again and replaces it, in its
# place. With another id it is another element, and stays: a serial number does not tell that the two are one, as
# elements may share it.
for place in 90 24; do # inside an object's data; in the serial number's GUID
    changed "$ordered" "$place" 252 >"$room/changed"
    put "$room/changed" "$room/late.knowledge"
    player 0 'new 1; book: elements 11, bytes 1756,' "$whole" "$book"
    same_elements "$whole" "$book"
    cmp "$ordered" "$book" || fail 'an element that comes again does not take the place of the damaged one'
    talks=$((talks + 1))
done
changed "$ordered" 8 252 >"$room/changed" # in the id
put "$room/changed" "$room/late.knowledge"
player 0 'new 1; book: elements 12, bytes 1985, ranges 3; wanted left 0' "$whole" "$book"
talks=$((talks + 1))

# ---- filters: what they put out does not come, and comes without them
printf '3e 02 04 00 02 00 ba 02 02 00 0b 1f 01\n' >"$room/not5"
fresh
player 0 'done: answers 4, refused for room 0, elements 4 of 650 bytes, new 4; book: elements 4,' --limit 0 \
    --filters "$room/not5" "$whole" "$book"
player 0 'new 7; book: elements 11, bytes 1756,' "$whole" "$book"
printf '3e0204000100\n1f01' >"$room/out-all"
fresh
player 0 'done: answers 1, refused for room 0, elements 0 of 0 bytes, new 0; book: elements 0, bytes 4, ranges 0; wanted' \
    --filters "$room/out-all" "$room/three" "$book"
talks=$((talks + 3))

# ---- two stores in one book
fresh
talk 1 3 "$room/three" "$room/three" "$book"
player 0 'new 11; book: elements 14, bytes 1894,' "$whole" "$book"
player 0 'new 0; book: elements 14, bytes 1894,' "$room/three" "$book"
talks=$((talks + 2))

# ---- padded numbers, as old benches write them: in the true lengths of the package, of an element and of what it holds, and as
# types. The elements come with their stored bytes, and only the package around them is written anew.
spelled 0e00feff b200 0c 1d*16 80 4b*16 0700000000000000 1600 f600feff 01 b200feff 1c0000 aabbcc 79 05 >"$room/padded.first"
spelled 0c66 14 1d*16 80 4b*16 0800000000000000 800100000000000000 05 >"$room/padded.index" # of type 1
spelled 0c56 1c 1d*16 80 4b*16 0900000000000000 01 05 >"$room/padded.zero" # of type 0
padded() { cat "$room/padded.first" "$room/padded.index" "$room/padded.zero"; }
{ spelled ae00feff 0600 00 && padded && spelled 55; } >"$room/padded"
{ spelled ac0200 && padded && spelled 55; } >"$room/padded.plain"
{ spelled ac0200 && cat "$room/padded.index" "$room/padded.first" "$room/padded.zero" && spelled 55; } >"$room/padded.book"
for pair in 0:3 112:3 113:2 166:2 167:1; do # by rank they have 54, 67 and 46 bytes
    fresh
    talk "${pair#*:}" 3 "$room/padded.book" "$room/padded" "$book" --limit "${pair%:*}"
    talk 1 0 "$room/padded.book" "$room/padded" "$book" --limit "${pair%:*}"
    talk 1 0 "$room/padded.book" "$room/padded.book" "$book" # the book is a store like any other
done
# A filter goes by the value of a type: 5 is put out. A filter that is itself padded is refused, and so is a knowledge.
fresh
player 0 'done: answers 2, refused for room 0, elements 2 of 100 bytes, new 2; book: elements 2,' --limit 0 \
    --filters "$room/not5" "$room/padded" "$book"
player 0 'new 1; book: elements 3, bytes 171,' "$room/padded" "$book"
talks=$((talks + 2))
no_padding='(an extended GUID or a serial number has no form, or a number of a request is padded)'
printf '3e 02 04 00 02 00 ba 02 04 00 16 00 1f 01\n' >"$room/padded5"
fresh
fault 5 "hub_ask refuses: 3, input 0, place 10 $no_padding" '* ' --filters "$room/padded5" "$room/padded" "$book"
# Damaged requests about it.
player 0 'no promise seen broken' --hostile 3 --times 200 --limit 0 --quiet "$room/padded"

# ---- faults: each has its status and its message, and leaves the folder as it was
fresh
fault 2 'a talk needs a store and a book' '* ' "$whole"
fault 2 '--limit: it takes a number' '* ' --limit 18446744073709551616 "$whole" "$book"
fault 2 '--answer-bytes: it takes a number' '* ' --answer-bytes 16842753 "$whole" "$book"
fault 2 '--fast: there is no such option' '* ' --fast "$whole" "$book"
fault 2 '--limit: a word is missing' '* ' "$whole" "$book" --limit
fault 2 'a file too many' '* ' "$whole" "$book" "$book"
fault 2 '--hostile: it needs a store, and no book' '* ' --hostile 1 "$whole" "$book"
fault 2 'only one of --put, --hostile, --dump and --replay' '* ' --dump "$whole" --replay $sample/sample.cases
fault 2 'only one of --put, --hostile, --dump and --replay' '* ' --hostile 1 --dump "$whole"
fault 2 '--times: it has no use with what else is asked for' '* ' --times 3 "$whole" "$book"
fault 2 '--stop-after: it has no use with what else is asked for' '* ' --hostile 1 --stop-after 3 "$whole"
fault 2 '--limit: it has no use with what else is asked for' '* ' --limit 3 --dump "$whole"
player 0 'Exit status:' --times 3 --dump "$whole" --help
fault 3 "$room/absent: it cannot be opened: No such file" '* ' "$room/absent" "$book"
fault 3 "$room/absent: it cannot be opened: No such file" '* ' --filters "$room/absent" "$whole" "$book"
fault 3 "$room: it cannot be read: Is a directory" '* ' "$room" "$book"
dd if=/dev/zero of="$room/large" bs=16777217 count=1 2>/dev/null
fault 4 "$room/large: it is too large: over 16777216 bytes" '* ' "$room/large" "$book"
fault 5 "$sample/first.request: it is no store: refused 5 at place 0" '* ' $sample/first.request "$book"
: >"$room/empty"
fault 5 "$room/empty: it is no store: refused 2 at place 0" '* ' "$room/empty" "$book"
changed "$whole" 628 006 >"$room/changed"
fault 5 "$room/changed: it is no store: refused 2 at place 632" '* ' "$room/changed" "$book"
fault 5 'it spells no bytes in hex' '* ' --filters "$whole" "$whole" "$book"
printf '3e0204000300 1f01' >"$room/other"
fault 5 'hub_ask refuses: 8, input 0, place 4' '* ' --filters "$room/other" "$whole" "$book"
for content in empty changed large; do
    case $content in large) status=4 ;; *) status=6 ;; esac
    cp "$room/$content" "$book"
    fault $status "$book: " 'book ' "$whole" "$book"
    cmp "$room/$content" "$book" || fail "a book that is refused ($content) is changed"
done

# What a talk reads is no file that it writes.
for ending in '' .new .knowledge .knowledge.new; do
    fresh
    cp "$whole" "$book$ending"
    fault 2 "$book$ending: it is to be read, and is a file that the talk writes" "book$ending " "$book$ending" "$book"
    fault 2 "$book$ending: it is to be read, and is a file that the talk writes" "book$ending " --filters "$book$ending" \
        "$room/three" "$book"
    cmp "$whole" "$book$ending" || fail "a store that is named book$ending is changed"
done
# Nor is it one of them by another name: by a path of another spelling, or by a link. Another file with the same bytes is none.
for ending in '' .new .knowledge .knowledge.new; do
    fresh
    cp "$whole" "$book$ending"
    fault 2 "$room/f/../f/./book$ending: it is to be read, and is a file that the talk writes" "book$ending " \
        "$room/f/../f/./book$ending" "$book"
    fault 2 "$book$ending: it is to be read, and is a file that the talk writes" "book$ending " --filters "$book$ending" \
        "$room/three" "$room/f/./book"
    cmp "$whole" "$book$ending" || fail "a store that is book$ending by another name is changed"
done
for link in 'ln -s' ln; do
    fresh
    cp "$whole" "$book"
    $link "$book" "$room/f/link"
    fault 2 "$room/f/link: it is to be read, and is a file that the talk writes" 'book link ' "$room/f/link" "$book"
    fault 2 "$book: it is to be read, and is a file that the talk writes" 'book link ' "$book" "$room/f/link"
done
fresh
cp "$whole" "$book"
talk 1 0 "$whole" "$whole" "$book"
fresh
fault 9 'it cannot be opened to be written: No such file' '* ' "$whole" "$room/f/absent/book"

# An old book and its knowledge stay where a new one cannot be written.
put "$room/early" "$room/early.knowledge"
stays() { # FILES
    fault 9 'it cannot be' "$1" "$whole" "$book"
    cmp "$room/early" "$book" || fail 'a book that cannot be written is changed'
    cmp "$room/early.knowledge" "$book.knowledge" || fail 'its knowledge is changed'
}
mkdir "$book.new"
stays 'book book.knowledge book.new '
rmdir "$book.new"
mkdir "$book.knowledge.new"
stays 'book book.knowledge book.knowledge.new '
rmdir "$book.knowledge.new"
# Files may have 512 or 1,024 bytes, as the shell counts them: the book has more, and stops as if the disk were full.
printf '%s\n' "trap '' XFSZ" 'ulimit -f 1' 'exec sh tools/run "$@"' >"$room/narrow"
runner=$room/narrow
stays 'book book.knowledge '
grep -Fq 'book.new: it cannot be written: ' "$room/err" || fail 'a book that stops in the middle is told otherwise'
runner=tools/run
if [ -c /dev/full ]; then
    sh tools/run "$program" --help >/dev/full 2>"$room/err"
    [ $? = 9 ] || fail 'an output that cannot be written does not give status 9'
fi
if [ "$(id -u)" != 0 ]; then
    chmod a-w "$room/f"
    stays 'book book.knowledge '
    chmod u+w "$room/f"
fi

# What lies at the names aside is not followed: not a link to a file, not another name of the book.
printf 'precious' >"$room/precious"
cp "$room/precious" "$room/kept"
for link in 'ln -s' ln; do
    put "$room/early" "$room/early.knowledge"
    $link "$room/precious" "$book.new"
    $link "$room/precious" "$book.knowledge.new"
    talk 7 7 "$ordered" "$whole" "$book" --limit 0
    cmp "$room/kept" "$room/precious" || fail "a file is written over to which 'book.new' is a link ($link)"
done
put "$room/early" "$room/early.knowledge"
ln "$book" "$book.new"
mkdir "$book.knowledge.new"
stays 'book book.knowledge book.knowledge.new '
rmdir "$book.knowledge.new"

# A knowledge that cannot be read is a fault, and not the same as none.
rm "$book.knowledge"
mkdir "$book.knowledge"
fault 3 "$book.knowledge: it cannot be read" 'book book.knowledge ' "$whole" "$book"

# ---- saving, step by step: the order of the steps, and what is left if one fails or the power goes before it
parts=$(printf '%s\n' player/*.c | grep -v -e files.c)
# shellcheck disable=SC2086
sh tools/cc "$room/failing" tests/failing_files.c $parts "$archive" || fail 'tests/failing_files.c is not compiled and linked'
program=$room/failing
cat >"$room/order" <<'END'
1 unlink book.new
2 make book.new
3 write book.new
4 flush book.new
5 to disk book.new
6 close book.new
7 unlink book.knowledge.new
8 make book.knowledge.new
9 write book.knowledge.new
10 flush book.knowledge.new
11 to disk book.knowledge.new
12 close book.knowledge.new
13 rename book
14 to disk folder
15 rename book.knowledge
16 to disk folder
END
put "$room/early" "$room/early.knowledge"
export STEPS="$room/steps"
talk 1 7 "$ordered" "$whole" "$book"
unset STEPS
cmp "$room/steps" "$room/order" || { cat "$room/steps"; fail 'a book is saved by other steps, or in another order'; }
cp "$book.knowledge" "$room/whole.knowledge"

# Whether book and knowledge are these.
are() { # STEP BOOK KNOWLEDGE
    cmp "$2" "$book" || fail "after $1 the book is not $2"
    cmp "$3" "$book.knowledge" || fail "after $1 the knowledge is not $3"
}
# A step that fails: its status and its message, nothing aside is left, and the next talk, with a disk that is whole, brings the rest.
step_fails() { # STEP STATUS MESSAGE BOOK KNOWLEDGE NEW
    put "$room/early" "$room/early.knowledge"
    export FAIL_AT="$1"
    if [ "$2" = 0 ]; then
        player 0 "$3" "$whole" "$book"
    else
        fault "$2" "$3: Input/output error" 'book book.knowledge ' "$whole" "$book"
    fi
    unset FAIL_AT
    are "step $1, which failed," "$4" "$5"
    talk 1 "$6" "$ordered" "$whole" "$book"
    are "step $1 and the next talk" "$ordered" "$room/whole.knowledge"
}
for step in 1 2 3 4 5 6 7 8 9 10 11 12 13; do
    case $step in
    1 | 2) message="$book.new: it cannot be opened to be written" ;;
    7 | 8) message="$book.knowledge.new: it cannot be opened to be written" ;;
    13) message="$book: the new file cannot take this name" ;;
    *) message="$(sed -n "${step}s|.* |$room/f/|p" "$room/order"): it cannot be written" ;;
    esac
    step_fails $step 9 "$message" "$room/early" "$room/early.knowledge" 7
done
step_fails 14 0 'new 7; book: elements 11, bytes 1756,' "$ordered" "$room/whole.knowledge" 0 # a folder may refuse
step_fails 15 9 "$book.knowledge: the new file cannot take this name" "$ordered" "$room/early.knowledge" 0
step_fails 16 0 'new 7; book: elements 11, bytes 1756,' "$ordered" "$room/whole.knowledge" 0

# The power goes before a step: the pair is the old one, the new one, or the new book with a knowledge that does not count.
for step in 1 2 3 4 5 6 7 8 9 10 11 12 13 14 15 16; do
    put "$room/early" "$room/early.knowledge"
    export CUT_AT=$step
    player 99 'the power goes' "$whole" "$book"
    unset CUT_AT
    player 0 'in step: ' --check "$book" "$whole"
    if [ $step -le 13 ]; then
        are "a cut before step $step" "$room/early" "$room/early.knowledge"
        talk 1 7 "$ordered" "$whole" "$book"
    elif [ $step -le 15 ]; then
        are "a cut before step $step" "$ordered" "$room/early.knowledge"
        talk 1 0 "$ordered" "$whole" "$book"
        grep -q 'is passed over: everything comes again' "$room/out" || fail "after a cut before step $step the old knowledge counts"
    else
        are "a cut before step $step" "$ordered" "$room/whole.knowledge"
        talk 1 0 "$ordered" "$whole" "$book"
    fi
    are "a cut before step $step and the next talk" "$ordered" "$room/whole.knowledge"
    [ "$(cd "$room/f" && printf '%s ' *)" = 'book book.knowledge ' ] || fail "a cut before step $step leaves a file for good"
done
program=$room/player

# A book that is full stays as it is.
elements 1 288 300 >"$room/one"
fresh
talk 1 256 "$room/most" "$room/most" "$book" --answer-bytes 16842752
fault 11 'the book is full: it has 256 elements' 'book book.knowledge ' "$room/one" "$book"
cmp "$room/most" "$book" || fail 'a full book is changed'

# ---- a hub that lies: the talk ends all the same, and what is broken is told
parts=$(printf '%s\n' player/*.c | grep -v -e exchange.c -e guarded.c)
# shellcheck disable=SC2086
sh tools/cc "$room/false" tests/false_hub.c $parts "$archive" || fail 'tests/false_hub.c is not compiled and linked'
program=$room/false
lie() { # LIE STATUS MESSAGE FILES WORDS..
    LIE=$1
    export LIE
    shift
    fresh
    fault "$@"
    unset LIE
}
fresh
talk 3 3 "$room/three" "$room/three" "$book" --limit 0
lie partial 8 '4 answers came about 3 groups of elements, and the last is still marked partial' 'book book.knowledge ' \
    "$room/three" "$book"
cmp "$room/none" "$book" || fail 'something is in a book to which nothing came'
elements 3 1 7 2 >"$room/shared" # the first two share a serial number
lie partial 8 '3 answers came about 2 groups of elements, and the last is still marked partial' 'book book.knowledge ' \
    "$room/shared" "$book"
lie id 7 'the answer is to another ask' '* ' "$room/three" "$book"
lie room 7 'hub_write refuses: 14' '* ' "$room/three" "$book"
lie less 7 'hub_write refuses: 14' '* ' --limit 0 "$room/three" "$book"
lie less 7 'hub_write writes 178 bytes, and hub_length told 223' '* ' "$room/three" "$book"
lie more 7 'hub_write writes 224 bytes, and hub_length told 225' '* ' "$room/three" "$book"
lie unread 7 'hub_read refuses: 7, input 0, place 0' '* ' "$room/three" "$book"
# A padded number in the knowledge of another maker's answer, which is taken and cannot be sent back: the talk ends there, and
# each one after it, until the knowledge is thrown away. Nothing is lost by that.
lie padded 7 "ask 2: hub_ask refuses: 3, input 1, place 42 $no_padding" 'book book.knowledge ' --limit 0 "$room/three" "$book"
fault 7 "ask 1: hub_ask refuses: 3, input 1, place 42 $no_padding" 'book book.knowledge ' "$room/three" "$book"
rm "$book.knowledge"
talk 1 2 "$room/three" "$room/three" "$book"
lie touch 10 'a promise is broken: the output of a refusal was changed' '* ' --hostile 1 "$room/three"
lie unread 10 'a promise is broken: an answer that hub_read does not take' '* ' --replay $sample/sample.cases
printf 'store=three request=%s out=4096\n' "$PWD/$sample/first.request" >"$room/cases"
lie less 10 'a promise is broken: hub_length tells something else' '* ' --replay "$room/cases"
lie more 10 'a promise is broken: hub_length tells something else' '* ' --replay "$room/cases"
printf 'store=three request=%s offered=4096\n' "$PWD/$sample/first.request" >"$room/cases"
for lie in less more room; do
    lie $lie 10 'a promise is broken: hub_write does not fill an output of the length that hub_length told' '* ' \
        --replay "$room/cases"
done
program=$room/player

# ---- dumps, damaged requests and stored cases: what is printed, by stored text
printed=0
prints() { # TEXT STATUS WORDS..
    text=tests/player/$1 status=$2
    shift 2
    player "$status" '' "$@"
    sed "s|$room|ROOM|g" "$room/both" >"$room/printed"
    cmp "$room/printed" "$text" || { diff "$text" "$room/printed"; fail "player $* prints other text than $text has"; }
    printed=$((printed + 1))
}
prints dump-request.txt 0 --dump $sample/first.request
prints dump-answer.txt 0 --dump $sample/first.answer
prints dump-manifests.txt 0 --dump $sample/manifests.store
prints dump-book.txt 0 --dump $sample/book.store
cp "$room/late.knowledge" "$room/known"
prints dump-knowledge.txt 0 --dump "$room/known"
changed "$room/known" 30 033 >"$room/unsealed" # an escape, which a terminal would obey
player 0 'a line of 56 bytes that is no seal: not all of them are text' --dump "$room/unsealed"
changed "$room/three" 22 201 >"$room/serial" # the first serial number begins with another byte
player 5 'element (0x01, compound, 43 bytes): 0c1d' --dump "$room/serial"
changed "$sample/manifests.store" 415 011 >"$room/wrong-end" # the last element ends with another type
prints dump-wrong-end.txt 5 --dump "$room/wrong-end"
dd if="$sample/manifests.store" of="$room/cut" bs=1 count=200 2>/dev/null
prints dump-cut.txt 5 --dump "$room/cut"
printf '%b' "$(awk 'BEGIN { for (i = 0; i < 18; i++) printf "\\0354\\0000" }')" >"$room/deep"
prints dump-deep.txt 5 --dump "$room/deep"
prints dump-padded.txt 0 --dump "$room/padded"
# An answer with a padded id and a padded range is taken. Its knowledge by itself is one for a request, where it is refused; so is
# a request with a padded number in what is only passed over, its user agent.
spelled 840026022000 f6357a3261071444968651e900667a4d a400 7826 4b*16 1e00 13 51130141 >"$room/padded.knowledge"
{
    spelled 0c000b009dcf29f33994069b 1603020000 ac0200
    padded
    spelled 55 0e020800 0600 05 00 fa02240014 1d*16 00
    cat "$room/padded.knowledge"
    spelled 07018b01
} >"$room/padded.answer"
prints dump-padded-answer.txt 0 --dump "$room/padded.answer"
player 5 'the library refuses it as a knowledge: 3 at place 42' --dump "$room/padded.knowledge"
spelled 0c000b009ccf29f33994069b 06020000 ee020000 b200feff 1c0000 aabbcc 7701 16020600 030500 8a02020000 da020600 030000 \
    0b010301 >"$room/padded.request"
prints dump-padded-request.txt 5 --dump "$room/padded.request"
printf 'store=padded request=%s out=4096\n' "$PWD/$sample/first.request" >"$room/cases"
player 0 'elements 3 at 20, knowledge at 217 of 48 bytes, storage index 2 of 1d1d1d1d' --replay "$room/cases"
printf 'store=padded request=padded.request out=4096\n' >"$room/cases"
player 0 "hub_write: 3, input 1, place 24, length 0 $no_padding" --replay "$room/cases"
prints hostile.txt 0 --hostile 7 --times 60 --limit 400 $sample/book.store
prints replay.txt 0 --replay $sample/sample.cases
prints help.txt 0 --help
fresh
prints talk.txt 0 --limit 400 --answer-bytes 330 --ask-bytes 60 $sample/book.store "$book"
prints again.txt 0 $sample/book.store "$book"

# ---- the stored answers again, as cases: what replay prints of them is what tests/answers.out has
player 0 '' --replay tests/answers.in
awk '/^hub_write: 0,/ { next }
    /^answer: / { print "ok " $2 }
    /^hub_write: / { gsub(/,/, ""); print "no " $2 " " $4 " " $6 " " $8 }' "$room/out" >"$room/answers"
cmp "$room/answers" tests/answers.out || fail 'other results come from --replay tests/answers.in than tests/answers.out has'
# And those of the bench's calls, as tests/asking.out has them.
player 0 '' --replay tests/asking.in
awk '{ gsub(/[,:]/, "") }
    $1 ~ /^hub_/ && $2 != 0 { print "no " $2, ($1 == "hub_ask" ? $4 " " $6 " " $8 : "0 " ($1 == "hub_read" ? $4 " 0" : $4 " " $6)) }
    $1 == "request" || $1 == "element" { print "ok " $2 }
    $1 == "hub_read" && $2 == 0 {
        if ($NF == "null") guid = "0 00000000000000000000000000000000 0"; else guid = "1 " $NF " " $(NF - 2)
        print "ok", $4, $6, guid, $10, $8, $13, $15
    }' "$room/out" >"$room/calls"
cmp "$room/calls" tests/asking.out || fail 'other results come from --replay tests/asking.in than tests/asking.out has'
fresh
printf 'write 00 00\n' >"$room/cases"
fault 5 "$room/cases, line 1: it is no case" '* ' --replay "$room/cases"
for lengths in 1792 '1792 x' '- 2048' '1792 18446744073709551616' '1792 2048 0'; do
    printf 'read -\nwrite 00 00 0 %s\n' "$lengths" >"$room/cases"
    fault 5 "line 2: it is no case of the form \`write STOREHEX REQUESTHEX OUTLEN [STORETABLELEN KNOWTABLELEN]\`" '* ' \
        --replay "$room/cases"
done
printf 'write 00 00 0 0 18446744073709551615\n' >"$room/cases"
player 0 'hub_write: 2, input 0, place 0, length 0' --replay "$room/cases"
for words in '00 00' '00 00 18446744073709551616' '00 00 x' '00 00 0 1792' '0 00 0'; do
    printf 'length %s\n' "$words" >"$room/cases"
    fault 5 "line 1: it is no case of the form \`length STOREHEX REQUESTHEX OFFERED [STORETABLELEN KNOWTABLELEN]\`" '* ' \
        --replay "$room/cases"
done
printf 'length 00 00 18446744073709551615 0 0\n' >"$room/cases"
player 0 'hub_length: 2, input 0, place 0, length 0' --replay "$room/cases"
for word in offered=-1 offered= out=x offered; do
    printf 'store=three request=three %s\n' "$word" >"$room/cases"
    fault 5 "$room/cases, line 1: it is no case (player --help tells the forms)" '* ' --replay "$room/cases"
done
printf 'read -\nreceived 00\n' >"$room/cases"
fault 5 "$room/cases, line 2: it is no case of the form \`received ANSWERHEX POSITION\`" '* ' --replay "$room/cases"
printf '# nothing\n#\000 write 00 00 0\n' >"$room/cases"
fault 5 "$room/cases, line 2: it has a NUL byte" '* ' --replay "$room/cases"
printf '# nothing\n\n' >"$room/cases"
fault 5 'there is no case in it' '* ' --replay "$room/cases"
printf 'store=absent request=three out=10\n' >"$room/cases"
fault 3 "$room/absent: it cannot be opened" '* ' --replay "$room/cases"
printf 'store=three request=large out=10\n' >"$room/cases"
player 0 'hub_write: 1, input 1, place 16777216, length 0' --replay "$room/cases"

# ---- puts
. tests/player/puts.sh

# ---- elements that share a serial number
. tests/player/groups.sh

# ---- books that are in step with a store or not
. tests/player/check.sh

printf 'tests/player.sh: %s talks, %s puts, %s kills, %s faults, %s checks, %s steps of a save, %s texts and %s replayed calls as they should be\n' \
    "$talks" "$puts" "$kills" "$faults" "$checks" "$(wc -l <"$room/put.order" | tr -d ' ')" "$printed" \
    "$(cat tests/answers.in tests/asking.in | wc -l | tr -d ' ')"
# Talks, puts, kills, faults, checks, the steps of a save, texts and replayed calls are a test each.
printf '8 passed, 0 failed\n'
