#!/bin/sh
# Holds the driver to what it is for: peers with one line spoiled are compared with the library, and each has to be told from it.
# Each line says which case or talk told one, and the last but one how many were. A case that told one is replayed, and so is the
# sample of cases from the field, where one of them tells it. Those spoiled in the tables are compared with the program `cases`, and
# so is what tells one, replayed. Those spoiled in what no call of hub.h shows are told by the stored lines of that program. All of
# it is one test: the last line is '1 passed, 0 failed'.
set -u
cd "$(dirname "$0")/.." || exit 1
. peer/files.sh

fail() {
    printf 'peer/spoiled.sh: FAILED: %s\n' "$*"
    exit 1
}

archive=target/staticlib/libhub.a
[ -s "$archive" ] || fail "there is no $archive: make archive writes it"
room=$(mktemp -d) || fail 'there is no room for temporary files'
trap 'rm -rf "$room"' EXIT
trap 'exit 1' HUP INT TERM
found=0
here=$PWD
mkdir -p "$room/objects/peer" "$room/objects/player" || fail 'there is no room for objects'

# One file is spoiled, and what is not is compiled once, for all programs.
compile() { # FILE OBJECT WORDS..
    file=$1 object=$2
    shift 2
    sh tools/cc "$room/$object" "$file" -Iinclude "$@" >"$room/log" 2>&1 || { cat "$room/log"; fail "$file is not compiled"; }
}

# A copy of a file of the peer with one line spoiled, built into a program with the peer's other files.
build() { # PROGRAM FILE RIGHT WRONG
    grep -Fq "$3" "peer/$2.c" || fail "peer/$2.c has no line with: $3"
    RIGHT=$3 WRONG=$4 awk '
        { at = done ? 0 : index($0, ENVIRON["RIGHT"]) }
        at { $0 = substr($0, 1, at - 1) ENVIRON["WRONG"] substr($0, at + length(ENVIRON["RIGHT"])); done = 1 }
        { print }' "peer/$2.c" >"$room/$2.c"
    compile "$room/$2.c" spoiled.o -Ipeer
    case $1 in
    compare) others=$peer_compare ;;
    series) others=$peer_series ;;
    lines) others=$peer_lines ;;
    *) others=$peer_tables ;;
    esac
    objects=''
    for whole in $peer_core $others; do
        made=objects/${whole%.c}.o
        [ -s "$room/$made" ] || compile "$whole" "$made"
        [ "$whole" != "peer/$2.c" ] || made=spoiled.o
        objects="$objects $made"
    done
    # The objects are named from their folder, so that their names have no blanks.
    # shellcheck disable=SC2086
    (cd "$room" && sh "$here/tools/cc" "$1" $objects "$here/$archive") >"$room/log" 2>&1 ||
        { cat "$room/log"; fail "peer/$2.c with '$4' is not linked"; }
}

replay() { # STATUS FILE WRONG
    sh tools/run "$room/compare" --replay "$2" >"$room/again" 2>&1
    got=$?
    [ "$got" = "$1" ] || { tail -n 40 "$room/again"; fail "with '$3' $2 is replayed with the status $got, not $1"; }
}

# By the cases, and again by the case that is saved.
spoil() { # FILE RIGHT WRONG
    spoil_with '--cases 100000' "$@"
}

# By books and answers that are kept in them; by the longest cases.
spoil_keep() { # FILE RIGHT WRONG
    spoil_with '--keeps --cases 20000' "$@"
}
spoil_large() { # FILE RIGHT WRONG
    spoil_with --large "$@"
}

spoil_with() { # WORDS-FOR-THE-DRIVER FILE RIGHT WRONG
    words=$1
    shift
    build compare "$@"
    # shellcheck disable=SC2086
    sh tools/run "$room/compare" $words --save "$room/case" >"$room/log" 2>&1 && fail "no case tells a peer with '$3' for '$2'"
    where=$(sed -n 's/^library and peer differ in \(case [0-9]*\).*/\1/p' "$room/log")
    [ -n "$where" ] || { cat "$room/log"; fail "the driver ends in another way with '$3'"; }
    replay 1 "$room/case" "$3"
    grep -q '^library and peer differ in line 1$' "$room/again" || fail "the case for '$3' tells nothing when replayed"
    printf 'told by %s: %s: %s for %s\n' "$where" "$1" "${3:-nothing}" "$2"
    found=$((found + 1))
}

# By cases from the field: the sample has some that are saved as files in its lines 6 to 8, 20 and 24, puts in lines 12 to 15, asks
# for a length in lines 18 to 20, and answers that are kept in lines 24 to 26. Each line that tells it is named, with the words; the others are run all the same.
spoil_field() { # LINES-WITH-WORDS FILE RIGHT WRONG
    awaited=$1
    shift
    build compare "$@"
    replay 1 player/sample/sample.cases "$3"
    awk '/^  library: number / { what = before }
        sub(/^library and peer differ in line /, "") { print $0, what; count++ }
        { before = $0 }
        END { print $0 == "cases by library and peer: 15, with a difference: " count ? count : "another end" }' \
        "$room/again" >"$room/told"
    [ "$(sed '$d' "$room/told" | tr '\n' ';')" = "$awaited;" ] &&
        [ "$(grep -c '^library and peer agree' "$room/again")" = $((15 - $(tail -n 1 "$room/told"))) ] ||
        { cat "$room/again" "$room/told"; fail "with '$3' the sample is to tell: $awaited"; }
    printf 'told by the sample (%s): %s: %s for %s\n' "$awaited" "$1" "${3:-nothing}" "$2"
    found=$((found + 1))
}

# By the talks.
spoil_talk() { # FILE RIGHT WRONG
    build series "$@"
    sh tools/run "$room/series" --save "$room/case" >"$room/log" 2>&1 && fail "no talk tells a peer with '$3' for '$2'"
    where=$(sed -n 's/^\(talk [0-9]*\), .*/\1/p' "$room/log")
    [ -n "$where" ] || { cat "$room/log"; fail "the talks end in another way with '$3'"; }
    printf 'told by %s: %s: %s for %s\n' "$where" "$1" "${3:-nothing}" "$2"
    found=$((found + 1))
}

# By the tables that the program `cases` lends, or by what the peer itself has no right to touch; again by the case that is saved.
spoil_tables() { # FILE RIGHT WRONG
    build tables "$@"
    sh peer/tables.sh "$room/tables" 1000 1 "$room/case" >"$room/log" 2>&1
    got=$?
    [ "$got" = 1 ] || { tail -n 40 "$room/log"; fail "with '$3' for '$2' the tables are compared with the status $got, not 1"; }
    where=$(sed -n -e 's/^library and peer differ in \(case [0-9]*\) .*/\1/p' \
        -e 's/^the peer .* in \(case [0-9]*\) .*/\1/p' "$room/log")
    [ -n "$where" ] && grep -Eq '^(length|write)( [^ ]+){5}$' "$room/case" ||
        { cat "$room/log"; fail "the tables end in another way with '$3'"; }
    sh peer/tables.sh "$room/tables" --replay "$room/case" >"$room/again" 2>&1
    got=$?
    [ "$got" = 1 ] && grep -Eq '^(library and peer differ|the peer .*) in line 1$' "$room/again" ||
        { cat "$room/again"; fail "the case for '$3' tells nothing when replayed with its tables"; }
    printf 'told by %s of the tables: %s: %s for %s\n' "$where" "$1" "${3:-nothing}" "$2"
    found=$((found + 1))
}

# By the stored lines of the program `cases`: the first that differs is of the kind that the spoiled line is for. Answers that are
# written, which take most of the time, are left out.
grep -v '^write ' crates/cases/stdin >"$room/stored.in"
paste -d '|' crates/cases/stdin crates/cases/stdout | sed -e '/^write /d' -e 's/.*|//' >"$room/stored.out"
spoil_line() { # KIND FILE RIGHT WRONG
    kind=$1
    shift
    build lines "$@"
    sh tools/run "$room/lines" <"$room/stored.in" >"$room/got" || fail "with '$3' for '$2' the lines end with another status than 0"
    line=$(awk -v got="$room/got" '(getline other <got) <= 0 || other != $0 { print NR; exit }' "$room/stored.out")
    [ -n "$line" ] || fail "no stored line tells a peer with '$3' for '$2'"
    told=$(sed -n "${line}s/ .*//p" "$room/stored.in")
    [ "$told" = "$kind" ] || fail "a case of the kind '$told' tells '$3', not one of the kind '$kind'"
    printf 'told by a stored case of %s: %s: %s for %s\n' "$kind" "$1" "$3" "$2"
    found=$((found + 1))
}

spoil page 'bytes > asked->limit' 'bytes >= asked->limit'
spoil page 'price.count > MOST_RANGES' 'price.count >= MOST_RANGES'
spoil page 'page->length > room' 'page->length >= room'
spoil ranges 'number + 1 == at->from' 'number + 2 == at->from'
spoil ranges 'set->count--' 'set->count -= 0'
spoil ranges 'row->from > range->to + 1' 'row->from > range->to'
spoil ranges 'range->to != UINT64_MAX && ' ''
spoil ranges 'a.high < b.high' 'a.high > b.high'
spoil objects 'nest->depth == nest->most' 'nest->depth > nest->most'
spoil objects 'h.length > in->length - in->at' 'h.length >= in->length - in->at'
spoil objects 'little(p + 2, 2) > 12' 'little(p + 2, 2) > 11'
spoil numbers '*padded = x < least' '*padded = x + 1 < least'
spoil numbers 'id->number < 0x20000' 'id->number < 0x10000'
spoil store 'store->count == MOST_ELEMENTS' 'store->count + 1 == MOST_ELEMENTS'
spoil store 'store->count == MOST_ELEMENTS' 'store->count > MOST_ELEMENTS'
spoil store 'a->number == b->number' 'a->number % 4096 == b->number % 4096'
spoil store 'SERIALS_JUDGED && e->serial.null' 'SERIALS_JUDGED && e->serial.null && store->count > 0'
spoil store 'DEPTH, STORE_PADDING' 'DEPTH, PADDING_REFUSED'
spoil filters 'i == MOST_IDS' 'i > MOST_IDS'
spoil filters 'before == MOST_FILTERS' 'before > MOST_FILTERS'
spoil knowledge 'range.from > range.to' 'range.from >= range.to'
spoil knowledge 'reading->count == MOST_RANGES' 'reading->count > MOST_RANGES'
spoil knowledge 'reading->count++' 'reading->count += h.type == RANGE'
spoil knowledge 'SPECIALIZED, 4, most' 'SPECIALIZED, 3, most'
spoil request '(flags & 3) != 3' '(flags & 1) != 1'
spoil request_frame 'USER_AGENT, 2, DEPTH, REQUEST_PADDING' 'USER_AGENT, 2, DEPTH, PADDING_TAKEN'
spoil store 'type == 1' 'type == 2'
spoil ask 'limit != UINT64_MAX' 'limit < UINT64_MAX - 1'
spoil ask 'NULL, REQUEST_PADDING' 'NULL, PADDING_TAKEN'
spoil answer_frame '(status & 1) == 0' 'status == 0'
spoil store '3, DEPTH_READ' '3, DEPTH'
spoil answer_read 'position >= r.package.count' 'position > r.package.count'
# The two calls that answer: a told length that is one too long; one of the page for another length than is offered, also where that
# is cut to 32 bits; more told than there is to tell; an input that is changed; and a page that is written for another length than
# the output has, shorter and longer.
asks='return decide(&d, &given, offered, report, report_len);'
told='uint64_t number = decide(&d, &given, offered, report, report_len);'
longer="$told if (number == 0 && report_len >= REPORT_BYTES) report[REPORT_BYTES - 8]++; return number;"
spoil answer "$asks" "$longer"
spoil answer 'decide(&d, &given, offered,' 'decide(&d, &given, offered + 1,'
spoil answer 'decide(&d, &given, offered,' 'decide(&d, &given, offered - (offered > 0),'
spoil answer 'decide(&d, &given, offered,' 'decide(&d, &given, offered | UINT64_MAX,'
spoil answer 'decide(&d, &given, offered,' 'decide(&d, &given, (uint32_t)offered,'
spoil answer "$asks" "$told if (number == 0 && report_len >= 32) put_little(report + 24, d.elements.count, 8); return number;"
spoil answer "$asks" "$told if (number == 0) ((uint8_t *)(uintptr_t)request)[request_len - 1] ^= 1; return number;"
spoil answer 'decide(&d, &given, out_len,' 'decide(&d, &given, out_len - (out_len > 0),'
spoil answer 'decide(&d, &given, out_len,' 'decide(&d, &given, out_len | UINT64_MAX,'
# Row order: types 3 and 4 changed over; type 0 before all others; rows of equal rank turned round; the store's order kept. A filter
# put to the rows; elements that do not stand side by side copied as if they did. The storage index: the first row's, whatever its
# type, and the last one of the store.
ranked='(unsigned)e->type : RANKS' swapped='(unsigned)(e->type > 2 ? 7 - e->type : e->type) : RANKS'
placed='order->position[next[rank_of(&store->elements[i])]++] = (uint16_t)i;'
turned="unsigned j = store->count - 1 - i; $(printf '%s' "$placed" | sed -e 's/\[i\]/[j]/' -e 's/)i;/)j;/')"
kept='for (unsigned j = 0; j < d->elements.count; j++) d->order.position[j] = (uint16_t)j;'
first='if (d->elements.count > 0) d->index = d->elements.elements[d->order.position[0]].id;'
spoil order "$ranked" "$swapped"
spoil order 'e->type >= 1 && ' ''
spoil order "$placed" "$turned"
spoil answer 'order_rows(&d->order, &d->elements);' "$kept"
spoil page 'choice->in[groups->order->position[row]]' 'choice->in[row]'
spoil answer ' && element_of(d, i)->place == from + length' ''
spoil answer 'd->index = storage_index(&d->elements);' "d->index = storage_index(&d->elements); $first"
spoil store 'return store->elements[i].id;' 'null = store->elements[i].id;'
# Groups. Whom they join: elements whose serial numbers have the same number, or the same half of the GUID; none, so that what is
# sent of a group makes the rest known. What goes out: the first member alone; the members that the filters let in; members in the
# order of the store. When: only if the filters let all members in; if they let the first one in. Where: at the first member that is
# let in; at the last.
joined='unsigned slot = slot_with(last, groups, &element_at(groups, row)->serial);'
by_part="$joined slot = 0; \
while (last[slot] != 0 && element_at(groups, last[slot] - 1u)->PART != element_at(groups, row)->PART) slot++;"
considered='group = group_at(groups, &asked->choice, row);'
let_in='asked->choice.in[groups->order->position[ROW]]'
alone="$considered group.bytes = element_at(groups, row)->length; ((uint16_t *)(uintptr_t)groups->next)[row] = NO_ROW;"
begun='begin_page(page, &asked->known, around);'
emptied="$begun for (row = 0; row < groups->store->count; row++) \
if (!$(printf '%s' "$let_in" | sed 's/ROW/row/')) ((struct element *)(uintptr_t)element_at(groups, row))->length = 0;"
sending='send_group(page, groups, row);'
by_place="unsigned from = page->sent; $sending for (unsigned a = from; a < page->sent; a++) \
for (unsigned b = page->sent - 1; b > a; b--) \
if (groups->order->position[page->rows[b]] < groups->order->position[page->rows[b - 1]]) \
{ uint16_t moved = page->rows[b]; page->rows[b] = page->rows[b - 1]; page->rows[b - 1] = moved; }"
member='group.in |= choice->in[groups->order->position[row]];'
every='group.in = (group.bytes == element_at(groups, row)->length || group.in) && choice->in[groups->order->position[row]];'
in_turn='for (row = 0; row < groups->store->count; row++) {'
same_group='same_name(&element_at(groups, row)->serial, &element_at(groups, turn)->serial)'
at_member="for (unsigned turn = 0, there; turn < groups->store->count; turn++) { row = 0; \
while (!groups->first[row] || !$same_group) row++; there = row; \
while (WALKS && groups->next[there] != NO_ROW) there = groups->next[there]; if (there != turn) continue;"
at_let_in=$(printf '%s' "$at_member" | sed "s/WALKS/!$(printf '%s' "$let_in" | sed 's/ROW/there/')/")
at_last=$(printf '%s' "$at_member" | sed 's/WALKS/1/')
spoil groups "$joined" "$(printf '%s' "$by_part" | sed 's/PART/serial.number/g')"
spoil groups "$joined" "$(printf '%s' "$by_part" | sed 's/PART/serial.guid.low/g')"
spoil groups "$joined" "$joined slot = row;"
spoil page "$considered" "$alone"
spoil page "$begun" "$emptied"
spoil page "$sending" "$by_place"
spoil page "$member" "$every"
spoil page "$member" 'group.in |= group.bytes == element_at(groups, row)->length && choice->in[groups->order->position[row]];'
spoil page "$in_turn" "$at_let_in"
spoil page "$in_turn" "$at_last"
# How they are counted: the limit put to the first member of a group alone, and to a first group of more than one; 14 with the
# length for the first member.
lead='((const struct element *)(const void *)((const char *)group->serial - offsetof(struct element, serial)))->length'
taking='fault = take(page, asked, &group, place, room);'
many="page->count == 0 && group.bytes > element_at(groups, row)->length && group.bytes > asked->limit"
spoil page 'bytes > asked->limit' "page->bytes + $lead > asked->limit"
spoil page "$taking" "if ($many) { page->partial = 1; break; } $taking"
spoil page 'page->length > room' "page->length > room && (page->length -= (size_t)(group->bytes - $lead), 1)"
# Equal serial numbers refused with 11, in a store or in an answer.
judged='if (standing->serials == SERIALS_JUDGED && e->serial.null) {'
twice="for (unsigned j = 0; standing == &STANDING && j < store->count; j++) { \
if (same_name(&store->elements[j].serial, &e->serial)) return refuse(in, SEEN_BEFORE, place); } $judged"
twice_stored=$(printf '%s' "$twice" | sed 's/STANDING/in_store/') twice_read=$(printf '%s' "$twice" | sed 's/STANDING/in_answer/')
spoil store "$judged" "$twice_stored"
spoil store "$judged" "$twice_read"
# Puts. A serial number taken from the elements that stay only, so that one is given twice; gaps and the last number.
staying="uint64_t highest = 0 * highest_of(store, hub); \
for (unsigned j = 0; j < store->count; j++) if (find_id(entering, &store->elements[j].id) == entering->count && \
same_guid(store->elements[j].serial.guid, hub) && store->elements[j].serial.number > highest) \
highest = store->elements[j].serial.number;"
spoil new_store 'uint64_t highest = highest_of(store, hub);' "$staying"
spoil new_store 'highest + 1 + (uint64_t)' 'highest + (uint64_t)'
spoil new_store 'entering->count > UINT64_MAX - highest' 'entering->count >= UINT64_MAX - highest'
# The storage index that the put brings taken for the one that it expects; a replaced element left in; a header kept long.
spoil put 'read_extended_guid(in, &brought) && read_extended_guid(in, &put->expected)' \
    'read_extended_guid(in, &put->expected) && read_extended_guid(in, &brought)'
spoil new_store 'position = find_id(store, &e->id)' 'position = store->count'
spoil new_store 'p = put_start(p, ELEMENT, COMPOUND, data_length(e->element))' \
    'p = put_little(p, 0x0E + (data_length(e->element) << 17), 4)'
# The refusals in another order: 16 before 15, 9 before 15, 9 before 16; one too few, and the two buffers.
spoil new_store '(!same_name(&index' '(entering->count <= UINT64_MAX - highest && !same_name(&index'
spoil new_store '(!same_name(&index' '(enter_all(made, store, entering) == 0 && !same_name(&index'
spoil new_store '(entering->count > UINT64_MAX' '(enter_all(made, store, entering) == 0 && entering->count > UINT64_MAX'
spoil new_store 'made->count == MOST_ELEMENTS' 'made->count + 1 == MOST_ELEMENTS'
spoil put_answer 'w.made.length > new_store_len' 'w.made.length > new_store_len && out_len > 0'
# How elements are judged in a put: depth, padding, serial numbers; what may stand behind 0x5A; the bench's calls.
spoil store '3, DEPTH, REQUEST_PADDING' '2, DEPTH, REQUEST_PADDING'
spoil store 'DEPTH, REQUEST_PADDING' 'DEPTH, PADDING_TAKEN'
spoil store 'REQUEST_PADDING, SERIALS_IGNORED' 'REQUEST_PADDING, SERIALS_JUDGED'
spoil put 'pass_bytes(in, 2) && read_number' 'pass_bytes(in, 3) && read_number'
spoil ask_put 'expected.number > UINT32_MAX' 'number > UINT32_MAX'
spoil ask_put 'REQUEST_FRONT_BYTES + 14u' 'REQUEST_FRONT_BYTES + 13u'
spoil answer_read 'type == TO_PUT_CHANGES || ' ''
spoil answer_read 'report_len >= PEER_READ_PUT_REPORT_BYTES' 'report_len > PEER_READ_PUT_REPORT_BYTES'
# Answers that are kept in a book. What is replaced left in, or moved behind what stays; new ones in the answer's order turned round;
# an element replaced by one that only has its serial number; one that comes with its old serial number passed over.
entering='unsigned position = find_id(store, &e->id);'
by_serial="$entering for (unsigned j = 0; position == store->count && j < store->count; j++) \
if (same_name(&store->elements[j].serial, &e->serial)) position = j;"
entered='made->elements[position].element = e;'
copying='for (i = 0; i < made->count; i += n, p += bytes) {'
in_turns="for (unsigned turn = 0; turn < 2; turn++) $copying \
if (made->elements[i].enters != (int)turn) { n = 1; bytes = 0; continue; }"
spoil_keep new_store "$entering" 'unsigned position = store->count;'
spoil_keep keep "$copying" "$in_turns"
spoil_keep new_store '&entering->elements[i]' '&entering->elements[entering->count - 1 - i]'
spoil_keep new_store "$entering" "$by_serial"
spoil_keep new_store "$entered" \
    "if (position < store->count && same_name(&store->elements[position].serial, &e->serial)) { continue; } $entered"
# Elements copied as if they stood side by side; a fault of the answer told as the book's; an answer to a put taken.
spoil_keep keep 'first[n].element->place == first->element->place + *bytes' 'first[n].element->length > 0'
spoil_keep keep 'tell_fault(&in, 1, report' 'tell_fault(&in, 0, report'
spoil_keep keep 'read_answer(&in, TO_QUERY_CHANGES' 'read_answer(&in, answer_len % 2 == 0 ? TO_PUT_CHANGES : TO_QUERY_CHANGES'
# 9, 1 and 14 at their limits and in their order; how long an answer may be; more told than there is to tell.
spoil_keep new_store 'made->count == MOST_ELEMENTS' 'made->count + 1 == MOST_ELEMENTS'
spoil_keep keep '&w.answer.package) != 0) {' '&w.answer.package) != 0 && new_book_len % 2 == 0) {'
spoil_keep keep 'length > new_book_len' 'length >= new_book_len'
spoil_keep keep 'return tell(0, report' \
    'if (report_len >= 32) { put_little(report + REPORT_BYTES, w.made.count, 8); } return tell(0, report'
spoil_large keep 'length > LONGEST_INPUT' 'length >= LONGEST_INPUT'
spoil_large keep 'length > LONGEST_INPUT' 'length > LONGEST_INPUT && new_book_len > length'
spoil_large keep 'answer_len, LONGEST_ANSWER' 'answer_len, LONGEST_INPUT'
spoil_field '6 the outputs differ;20 the outputs of exactly the told length differ' store 'type == 1' 'type == 2'
spoil_field '8 the numbers differ' objects 'compound) ? 1 : refuse(in, WRONG_LAYOUT' 'compound) ? 1 : refuse(in, WRONG_END'
spoil_field '8 the reports differ' objects 'compound) ? 1 : refuse(in, WRONG_LAYOUT, h->place' \
    'compound) ? 1 : refuse(in, WRONG_LAYOUT, 1'
spoil_field '12 the new stores differ;24 the outputs differ;25 the outputs differ' new_store 'PACKAGE, COMPOUND, 1), 0, 1' 'PACKAGE, COMPOUND, 1), 1, 1'
spoil_field '25 the numbers differ' keep 'length > new_book_len' 'length >= new_book_len'
other='peer: the call for the length gives another report than the one that writes'
spoil_field "2 $other;6 $other;18 the reports differ;20 the reports differ" answer "$asks" "$longer"
spoil_field '3 peer: the call for the length gives another number than the one that writes;19 the numbers differ' \
    answer 'decide(&d, &given, offered,' 'decide(&d, &given, offered == 131 ? 132 : offered,'
spoil_talk page 'page->partial = 1' 'page->partial = 0'
spoil_talk page 'page->partial = 0' 'page->partial = 1'
spoil_talk page 'bytes > asked->limit' 'bytes >= asked->limit'
spoil_talk answer "$asks" "$longer"
spoil_talk answer 'decide(&d, &given, offered,' 'decide(&d, &given, offered + 1,'
spoil_talk answer 'decide(&d, &given, out_len,' 'decide(&d, &given, out_len - (out_len > 0),'
spoil_talk filters 'type == type' 'type >= type'
spoil_talk ranges 'at[-1].to = number' 'at[-1].to = number + 1'
spoil_talk order "$ranked" "$swapped"
spoil_talk order "$placed" "$turned"
spoil_talk groups "$joined" "$joined slot = row;"
spoil_talk page "$considered" "$alone"
spoil_talk page "$begun" "$emptied"
spoil_talk page "$sending" "$by_place"
spoil_talk page "$member" "$every"
spoil_talk page "$in_turn" "$at_let_in"
spoil_talk page "$in_turn" "$at_last"
spoil_talk page 'bytes > asked->limit' "page->bytes + $lead > asked->limit"
spoil_talk page "$taking" "if ($many) { page->partial = 1; break; } $taking"
spoil_talk new_store 'uint64_t highest = highest_of(store, hub);' "$staying"
spoil_talk new_store 'position = find_id(store, &e->id)' 'position = store->count'
spoil_talk new_store 'highest + 1 + (uint64_t)' 'highest + entering->count - (uint64_t)'
spoil_talk answer_read 'put_little(report + REPORT_BYTES, r.id, 8)' 'put_little(report + REPORT_BYTES, r.partial, 8)'
spoil_tables rows 'to[i] = little8' 'to[1 - i] = little8'
spoil_tables rows 'to[i] = little8' 'to[i] = big8'
spoil_tables rows 'to[1] = e->length' 'to[1] = e->place + e->length'
spoil_tables rows 'i < store->count; i++, to +=' 'i <= store->count; i++, to +='
spoil_tables rows 'i < set->count; i++, to +=' 'i + 1 < set->count; i++, to +='
# The rank of the element at the row's place in the store; rows of equal rank turned round; rows in the order of the store, though
# the answer is in theirs.
spoil_tables rows 'to[6] = rank_of(e)' 'to[6] = rank_of(&store->elements[i])'
spoil_tables order "$placed" "$turned"
spoil_tables rows 'store->elements[order->position[i]]' 'store->elements[order == NULL ? 0 : i]'
spoil_tables answer 'd->elements.count, 8' 'd->page.sent, 8'
spoil_tables answer 'rows_len < ROWS_NEEDED' 'rows_len <= ROWS_NEEDED'
spoil_tables answer 'rows_len < ROWS_NEEDED' 'rows_len < 1536'
spoil_tables answer 'ranges_len < RANGES_NEEDED' 'ranges_len + 1 < RANGES_NEEDED'
# 13 behind the store's faults; rows in spite of 14, by either call; a call for the length that fills no table, or one of the two,
# or fills them for another length.
short='(tables->rows_len < ROWS_NEEDED || tables->ranges_len < RANGES_NEEDED)'
spoil_tables answer "$short" "(peer_element(0, given->store, given->store_len, 0, NULL, 0) % 9 == 0 && $short)"
for length in out_len offered; do
    decided="number = decide_lent(&d, &given, $length, tables, report, report_len);"
    spoil_tables answer "$decided" "$decided if (number == OUTPUT_TOO_SHORT) fill_tables(tables, &d, report, 0);"
done
spoil_tables answer "$decided" "$decided if (number == 0) return number;"
spoil_tables answer "$decided" "$decided if (number == 0) { put_rows(tables->rows, &d.elements, &d.order); return number; }"
spoil_tables answer 'decide_lent(&d, &given, offered,' 'decide_lent(&d, &given, offered + 1,'
spoil_tables answer 'decide_lent(&d, &given, out_len,' 'decide_lent(&d, &given, out_len - (out_len > 0),'
spoil_line compact numbers '*padded = x < least' '*padded = x >= least'
spoil_line wserial numbers 'if (serial->null)' 'if (serial->number == 0)'
spoil_line wstart objects 'type < 64 && length < 128' 'type < 64 && length < 127'
spoil_line wstart objects 'length < 0x7FFF' 'length <= 0x7FFF'
spoil_line wend objects 'type < 64 ?' 'type <= 64 ?'
# Types that have a rank of their own only if they are cut.
spoil_line store order "return e->type >= 1 && e->type < RANKS ? $ranked" \
    'uint32_t type = (uint32_t)e->type; return type >= 1 && type < RANKS ? type : RANKS'
spoil_line length answer 'decide_lent(&d, &given, offered,' 'decide_lent(&d, &given, offered + 1,'
# Equal serial numbers refused with 11; 14 with the length for the first member.
spoil_line element store "$judged" "$twice_stored"
spoil_line read store "$judged" "$twice_read"
spoil_line length page 'page->length > room' "page->length > room && (page->length -= (size_t)(group->bytes - $lead), 1)"
spoil_line request request 'filters_at = h.place' 'filters_at = in->at'
printf 'peer/spoiled.sh: %s spoiled peers were told from the library\n' "$found"
printf '1 passed, 0 failed\n'
