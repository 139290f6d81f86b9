/* What the words after the program's name ask for (options.h). */
#include "options.h"
#include "../include/hub.h"
#include "files.h"
#include "status.h"

#include <stdio.h>
#include <stdlib.h>
#include <string.h>

/* The hub's GUID if none is named: one that anybody sees is none of a real hub, which keeps its own with its store. */
#define SAMPLE_GUID "00112233445566778899aabbccddeeff"

static void say_words(void) {
    puts("player [OPTIONS] STORE BOOK              hold a talk: bring the book up to what the store has\n"
         "player --put FILE [OPTIONS] STORE BOOK   hand in changes to the store, and bring the book up to what it then has\n"
         "player --hostile SEED [OPTIONS] STORE    damage the requests of such a talk and show what the hub says\n"
         "player --check BOOK STORE                tell whether a book is in step with a store, and which ids differ\n"
         "player --dump FILE                       print the objects of a store, a request, a put, an answer or a knowledge\n"
         "player --replay FILE                     make stored calls again, and show what they give\n"
         "\n"
         "  --limit N         ask for at most N bytes of elements in an answer, or one group (no limit)\n"
         "  --filters FILE    ask with these filters, spelled in hex as a request has them (none)\n"
         "  --answer-bytes N  offer N bytes for an answer (4096)\n"
         "  --ask-bytes N     begin with a buffer of N bytes for the request (256)\n"
         "  --stop-after N    in a talk: stop after N answers; the next talk goes on from there\n"
         "  --guid HEX        with --put: the hub's GUID, sixteen bytes (" SAMPLE_GUID ")\n"
         "  --times N         with --hostile: so many damaged requests (100)\n"
         "  --quiet           no line for each answer or request, only the last one\n"
         "\n"
         "The hub asks for the length of each answer, for what is offered, and lends exactly so much; it lends more only for\n"
         "the smallest page. A buffer of another call that is too short grows to the length that is needed, and the call is\n"
         "made again. The book is saved after each answer that brings something, with the knowledge beside it in\n"
         "BOOK.knowledge; one program at a time may use it.\n"
         "'Wanted left' counts the elements of the store that the book lacks, by id and serial number; those that filters\n"
         "put out count too. The hub sends the storage index first, and a line tells with which answer it has come.\n"
         "Elements that share a serial number are a group, which comes whole, also if a filter puts some of it out. Where\n"
         "there are such, a line tells how many groups the store has, and how many an answer.\n"
         "A book is in step if every element of the store whose serial number is known stands in it with the store's bytes. What\n"
         "is known is said by the knowledge beside the book, if it was saved with this book; else nothing is, and all of it\n"
         "would come. What would still come without filters, and what the book alone has, is told, and is no fault.\n"
         "\n"
         "What is handed in: a package, as a store is one, or the bytes of elements alone; or a folder of such files, which\n"
         "are taken in the order of their names, hidden ones not. STORE is replaced whole, and is the old or the new one at any\n"
         "moment; STORE.lock keeps two puts apart. If the store has another storage index by then than it had when it was\n"
         "asked, it is asked and put again; three puts are made at most.");
}

static void say_forms(void) {
    puts("\n"
         "A line of a file of cases is one of these. Files stand beside the file of cases; bytes are hex, - for none. Empty\n"
         "lines and those that begin with # are passed over. STORETABLELEN and KNOWTABLELEN may be left out, and here they have\n"
         "no bearing: the calls have tables of their own. `make replay` compares lent ones through another program.\n"
         "   store=FILE request=FILE offered=OFFERED\n"
         "   store=FILE request=FILE out=OUTLEN\n"
         "   store=FILE put=FILE guid=HUBGUIDHEX new=NEWSTORELEN out=OUTLEN\n"
         "   book=FILE answer=FILE new=NEWBOOKLEN\n"
         "   length STOREHEX REQUESTHEX OFFERED [STORETABLELEN KNOWTABLELEN]\n"
         "   write STOREHEX REQUESTHEX OUTLEN [STORETABLELEN KNOWTABLELEN]\n"
         "   ask ID LIMIT FILTERHEX KNOWLEDGEHEX OUTLEN\n"
         "   read ANSWERHEX\n"
         "   received ANSWERHEX POSITION\n"
         "   element STOREHEX POSITION\n"
         "   put STOREHEX REQUESTHEX HUBGUIDHEX NEWSTORELEN OUTLEN\n"
         "   ask_put ID NAMED GUIDHEX NUMBER ELEMENTSHEX OUTLEN\n"
         "   read_put ANSWERHEX\n"
         "   keep BOOKHEX ANSWERHEX NEWBOOKLEN\n"
         "A GUID is its sixteen bytes as they are sent. NAMED is 1 if the storage index of this GUID and NUMBER is expected,\n"
         "and 0 if none is.");
}

static void say_statuses(void) {
    puts("\n"
         "Exit status:\n"
         "   0  done\n"
         "   2  wrong use: words that are not taken, or not together\n"
         "   3  a file cannot be opened or read\n"
         "   4  a file is too large\n"
         "   5  a file is no store, no filters, no cases, or has no well-formed objects, or none that can be handed in\n"
         "   6  the book is damaged; it stays as it is\n"
         "   7  an unexpected refusal, an answer to another ask, or another storage index each time\n"
         "   8  more answers than a talk can have\n"
         "   9  the book, its knowledge, the store, its lock or the output cannot be written; book and store are whole,\n"
         "      the old one or a new one\n"
         "  10  a call did not keep a promise of include/hub.h\n"
         "  11  the book is full, or the store with what is handed in\n"
         "  12  no memory\n"
         "  13  the book is not in step with the store: it lacks an element that is known, or has it with other bytes");
}

void say_help(void) {
    say_words();
    say_forms();
    say_statuses();
}

static int wrong(const char *what, const char *word) {
    fprintf(stderr, "player: %s: %s (player --help tells more)\n", word, what);
    return WRONG_USE;
}

int decimal(const char *word, uint64_t most, uint64_t *value) {
    uint64_t x = 0;
    if (*word == 0) {
        return 0;
    }
    for (; *word != 0; word++) {
        unsigned d = (unsigned)(*word - '0');
        if (d > 9 || x > most / 10 || x * 10 > most - d) {
            return 0;
        }
        x = x * 10 + d;
    }
    *value = x;
    return 1;
}

/* ---- the options */

#define IN(mode) (1u << (mode))

struct known {
    const char *name;
    enum { PLAIN, NUMBER, NAME } takes; /* what the word behind it is */
    unsigned modes;                     /* those in which it has a use */
};

#define IN_TALKS (IN(TALK) | IN(PUT) | IN(HOSTILE))

static const struct known options_known[] = {
    {"--limit", NUMBER, IN_TALKS},     {"--answer-bytes", NUMBER, IN_TALKS}, {"--ask-bytes", NUMBER, IN_TALKS},
    {"--filters", NAME, IN_TALKS},     {"--quiet", PLAIN, IN_TALKS},         {"--stop-after", NUMBER, IN(TALK)},
    {"--times", NUMBER, IN(HOSTILE)},  {"--guid", NAME, IN(PUT)},            {"--hostile", NUMBER, IN(HOSTILE)},
    {"--put", NAME, IN(PUT)},          {"--check", NAME, IN(CHECK)},         {"--dump", NAME, IN(DUMP)},
    {"--replay", NAME, IN(REPLAY)},    {"--help", PLAIN, IN(HELP)},
};

static const struct known *find_option(const char *word) {
    for (size_t i = 0; i < sizeof options_known / sizeof options_known[0]; i++) {
        if (strcmp(word, options_known[i].name) == 0) {
            return &options_known[i];
        }
    }
    return NULL;
}

/* There is one mode, which is asked for once; but who asks for help gets it, whatever else is asked for. */
static int take_mode(struct options *o, enum mode mode, const char *name) {
    if (o->mode != TALK && o->mode != HELP && mode != HELP) {
        return wrong("only one of --put, --hostile, --dump and --replay can be asked for, and once, and --check beside none", name);
    }
    o->mode = o->mode == HELP ? HELP : mode;
    return ENDED_WELL;
}

/* The options with a number: where it goes, and the greatest that is taken. Lengths stay within what an answer can need. */
static int take_number(struct options *o, const char *name, const char *word) {
    uint64_t value = 0, most = strstr(name, "-bytes") != NULL ? HUB_LONGEST_ANSWER_READ : UINT64_MAX;
    if (!decimal(word, most, &value)) {
        return wrong("it takes a number in decimal, a buffer's at most 16842752", name);
    }
    if (strcmp(name, "--limit") == 0) {
        o->limit = value;
    } else if (strcmp(name, "--answer-bytes") == 0) {
        o->answer_bytes = (size_t)value;
    } else if (strcmp(name, "--ask-bytes") == 0) {
        o->ask_bytes = (size_t)value;
    } else if (strcmp(name, "--stop-after") == 0) {
        o->stop_after = value;
    } else if (strcmp(name, "--times") == 0) {
        o->times = value;
    } else {
        o->seed = value;
        return take_mode(o, HOSTILE, name);
    }
    return ENDED_WELL;
}

static int take_guid(struct options *o, const char *word) {
    struct bytes guid = {NULL, 0, 0};
    int good = bytes_spelled(&guid, word, strlen(word)) && guid.length == 16;
    if (good) {
        o->guid_low = hub_report_number(guid.at, 0);
        o->guid_high = hub_report_number(guid.at, 8);
    }
    bytes_free(&guid);
    return good ? ENDED_WELL : wrong("it takes sixteen bytes in hex", "--guid");
}

/* The options with a name, or with bytes that are spelled. */
static int take_word(struct options *o, const char *name, const char *word) {
    if (strcmp(name, "--guid") == 0) {
        return take_guid(o, word);
    }
    if (strcmp(name, "--filters") == 0) {
        o->filters = word;
        return ENDED_WELL;
    }
    if (strcmp(name, "--check") == 0) {
        int status = take_mode(o, CHECK, name);
        status = status == ENDED_WELL && o->book != NULL ? wrong("a file too many", o->book) : status;
        o->book = word;
        return status;
    }
    o->file = word;
    return take_mode(o, strcmp(name, "--put") == 0 ? PUT : strcmp(name, "--dump") == 0 ? DUMP : REPLAY, name);
}

/* One option and the word that it takes: *used tells how many words they are. */
static int take_option(struct options *o, int left, char **words, int *used) {
    const struct known *k = find_option(words[0]);
    if (k == NULL) {
        return wrong("there is no such option", words[0]);
    }
    *used = k->takes == PLAIN ? 1 : 2;
    if (*used > left) {
        return wrong("a word is missing behind it", words[0]);
    }
    if (k->takes == NUMBER) {
        return take_number(o, words[0], words[1]);
    }
    if (k->takes == NAME) {
        return take_word(o, words[0], words[1]);
    }
    if (strcmp(words[0], "--help") == 0) {
        return take_mode(o, HELP, words[0]);
    }
    o->quiet = 1;
    return ENDED_WELL;
}

static int take_name(struct options *o, const char *word) {
    if (o->store == NULL) {
        o->store = word;
    } else if (o->book == NULL && o->mode != CHECK) {
        o->book = word;
    } else {
        return wrong("a file too many", word);
    }
    return ENDED_WELL;
}

/* ---- what goes together */

/* An option of another mode would be passed over, and who gave it would think that it was heard. */
static int all_of_use(const struct options *o, int count, char **words) {
    for (int i = 1; i < count; i++) {
        const struct known *k = words[i][0] == '-' ? find_option(words[i]) : NULL;
        if (k != NULL && (k->modes & IN(o->mode)) == 0) {
            return wrong("it has no use with what else is asked for", words[i]);
        }
        i += k != NULL && k->takes != PLAIN ? 1 : 0;
    }
    return ENDED_WELL;
}

/* The names that are written: the book's, and with a put the store's. */
static const char *const book_endings[] = {"", ".new", ".knowledge", ".knowledge.new", NULL};
static const char *const store_endings[] = {"", ".new", ".lock", NULL};

/* Whether a word is one of these. It is the same file if the name is, or if device and inode are: `./book` is found to be `book`,
   and a link to it too. */
static int is_one_of(const char *word, const char *written, const char *const *endings) {
    int same = 0;
    for (; word != NULL && *endings != NULL; endings++) {
        char *name = name_with(written, *endings);
        same = same || strcmp(word, name) == 0 || file_is(word, name);
        free(name);
    }
    return same;
}

/* A file that a talk reads is none of those that it writes, or saving would destroy it. The store of a put is both, but the book is
   none of its files. */
static int not_written(const struct options *o) {
    const char *const words[] = {o->store, o->filters, o->mode == PUT ? o->file : NULL};
    for (size_t i = 0; i < sizeof words / sizeof words[0]; i++) {
        int same = is_one_of(words[i], o->book, book_endings);
        same = same || (i > 0 && o->mode == PUT && is_one_of(words[i], o->store, store_endings));
        if (same) {
            return wrong("it is to be read, and is a file that the talk writes: book or store, or one beside it", words[i]);
        }
    }
    if (o->mode == PUT && is_one_of(o->book, o->store, store_endings)) {
        return wrong("it is to be the book, and is a file that is written beside the store", o->book);
    }
    return ENDED_WELL;
}

static int go_together(const struct options *o, int count, char **words) {
    if (o->mode == HELP) {
        return ENDED_WELL;
    }
    if ((o->mode == TALK || o->mode == PUT) && o->book == NULL) {
        return wrong("a talk needs a store and a book", words[0]);
    }
    if (o->mode == CHECK && o->store == NULL) {
        return wrong("it needs a book and a store", "--check");
    }
    if (o->mode == HOSTILE && (o->store == NULL || o->book != NULL)) {
        return wrong("it needs a store, and no book", "--hostile");
    }
    if ((o->mode == DUMP || o->mode == REPLAY) && o->store != NULL) {
        return wrong("a file too many", o->store);
    }
    int status = all_of_use(o, count, words);
    return status == ENDED_WELL && (o->mode == TALK || o->mode == PUT) ? not_written(o) : status;
}

int options_read(struct options *o, int count, char **words) {
    struct options none = {TALK, NULL, NULL, NULL, NULL, HUB_NO_LIMIT, 0, 100, UINT64_MAX, 256, 4096, 0, 0, 0};
    int status = ENDED_WELL, used = 1;
    *o = none;
    (void)take_guid(o, SAMPLE_GUID);
    for (int i = 1; i < count && status == ENDED_WELL; i += used) {
        used = 1;
        if (words[i][0] == '-') {
            status = take_option(o, count - i, words + i, &used);
        } else {
            status = take_name(o, words[i]);
        }
    }
    return status == ENDED_WELL ? go_together(o, count, words) : status;
}
