/* Lines of text (spell.h). */
#include "spell.h"
#include "hub.h"

#include <stdio.h>
#include <string.h>

void spell_words(struct text *t, const char *words) {
    text_add(t, words, strlen(words));
}

void spell_number(struct text *t, const char *mark, uint64_t x) {
    char digits[24];
    spell_words(t, mark);
    text_add(t, digits, (size_t)snprintf(digits, sizeof digits, "%llu", (unsigned long long)x));
}

void spell_hex(struct text *t, const uint8_t *p, size_t n) {
    static const char digits[] = "0123456789abcdef";
    size_t i;
    spell_words(t, n == 0 ? " -" : " ");
    for (i = 0; i < n; i++) {
        text_byte(t, (unsigned char)digits[p[i] >> 4]);
        text_byte(t, (unsigned char)digits[p[i] & 15]);
    }
}

void spell_rows(struct text *t, const uint64_t *table, uint64_t count, unsigned numbers) {
    uint64_t i;
    if (count == 0) {
        spell_words(t, " -");
    }
    for (i = 0; i < count * numbers; i++) {
        spell_number(t, i == 0 ? " " : i % numbers == 0 ? ";" : ",", table[i]);
    }
}

void spell_refusal(struct text *t, uint64_t number, uint64_t input, uint64_t place, uint64_t needed) {
    spell_number(t, "no ", number);
    spell_number(t, " ", input);
    spell_number(t, " ", place);
    spell_number(t, " ", needed);
}

int is_read(int was_read, struct text *t, const struct input *in, uint64_t input) {
    if (!was_read) {
        spell_refusal(t, in->fault, input, in->place, 0);
    }
    return was_read;
}

void spell_report(struct text *t, uint64_t number, const uint8_t *report) {
    spell_refusal(t, number, hub_report_number(report, HUB_AT_INPUT), hub_report_number(report, HUB_AT_PLACE),
                  hub_report_number(report, HUB_AT_LENGTH));
}

void spell_written(struct text *t, const uint8_t *p, const uint8_t *end, uint64_t room) {
    size_t n = (size_t)(end - p);
    if (n > room) {
        spell_refusal(t, OUTPUT_TOO_SHORT, 0, 0, n);
        return;
    }
    spell_words(t, "ok");
    spell_hex(t, p, n);
}
