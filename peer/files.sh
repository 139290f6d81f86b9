# shellcheck shell=sh disable=SC2034
# Which files make up the peer and its programs, for the scripts that build them.
peer_core='peer/numbers.c peer/objects.c peer/store.c peer/ranges.c peer/knowledge.c peer/filters.c peer/request_frame.c
    peer/request.c peer/order.c peer/groups.c peer/page.c peer/rows.c peer/answer_frame.c peer/answer.c peer/ask.c
    peer/answer_read.c peer/put.c peer/new_store.c peer/put_answer.c peer/ask_put.c
    peer/keep.c'
peer_makers='peer/text.c peer/make_items.c peer/make_types.c peer/make_groups.c peer/make.c peer/make_messages.c
    peer/make_puts.c peer/make_keeps.c'
# The reader of stored cases and the library's account of them are those of the program in player/.
peer_reader='peer/stored_case.c player/stored.c player/bytes.c player/files.c player/options.c'
peer_stored="$peer_reader player/replay.c player/guarded.c player/report.c"
peer_compare="$peer_makers peer/generate.c peer/lend.c peer/cases.c peer/pair.c peer/large.c peer/field.c $peer_stored
    peer/compare.c"
peer_series="$peer_makers peer/lend.c peer/cases.c peer/pair.c peer/model.c peer/model_put.c peer/talk_puts.c peer/series.c"
peer_kept_talks="$peer_makers peer/lend.c peer/cases.c peer/pair.c peer/model.c peer/model_put.c peer/kept_talks.c"
# What spells a line of the program `cases`, and has the answering calls made with lent tables for it.
peer_spell='peer/lend.c peer/spell.c peer/lent_answer.c'
peer_tables="$peer_makers peer/generate.c $peer_spell $peer_reader peer/tables.c"
peer_lines="peer/text.c $peer_spell peer/words.c peer/line_items.c peer/line_wholes.c peer/line_calls.c peer/line_puts.c
    peer/line_keeps.c peer/lines.c"
peer_speed="$peer_makers peer/speed.c"
