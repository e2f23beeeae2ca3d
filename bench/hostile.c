// Dumps that someone wrote to make a reader slow, for `bench/hostile.sh`. Of each shape there is an ordinary dump too, with as
// many of what the shape has, which `plain` before the shape's name makes.
//
//   hostile pids FILE N       N processes whose pids are 8 free bytes and 8 by which a hash with a fixed seed, that takes a
//                             text at one go, is the same for all
//   hostile tags FILE N       N sections of different tags, of which up to 65,536 have one hash, taken byte by byte
//   hostile mailboxes FILE N  N mailboxes with such ids, and a process
//   hostile kinds FILE N      a process with N links and another whose list asks for them, to pids as those of `pids`
//   hostile payload FILE N    a tuple of 1,000 references to one binary of the heap of N bytes
//   hostile external FILE N   a tuple of 1,000 references to one external term of N bytes
//   hostile subs FILE N       a tuple of 100 N elements, and N sub binaries that name it as their binary
//   hostile address FILE N    a heap of N lines with one address
//   hostile falling FILE N    a list of N cells whose addresses fall
//   hostile commas FILE N     a link list of N times `, `
//   hostile equals FILE N     N lines that are `=` alone
//   hostile roots FILE N      a stack of N roots, each of which is the same list of N cells
//   hostile one_pid FILE N    N processes of one pid
//   hostile star FILE N       N processes, each linked to the first, which is linked to all
//   hostile nested FILE N     an external term of N lists of one element, each in the one before
//   hostile counts FILE N     N external tuples that want as many elements as a tuple can, of which one stands there
//   hostile quoted FILE N     an external term of N atoms of as many bytes as an atom can have, each of which is quoted
//   hostile letters FILE N    a heap of N lines that are the letter with which references to binaries begin
//   hostile marks FILE N      a heap of N lines that begin as a heap binary does, and are none
//   hostile states FILE N     N processes, each in a state of its own, all of which begin with the same hundred bytes
//   hostile frames FILE N     N processes, each with a stack of 20 frames, all of which but the end of the last are the same
//   hostile numbers FILE N    N sections of one binary, and a heap with as many references to it
//   hostile inner FILE N      a tuple of 3 N / 4 references, to as many inner nodes of hash maps, each of which leads into one
//                             chain of N lists
//   hostile one_text FILE N   N messages of one cell that has an atom of N bytes
//   hostile texts FILE N      N messages, each of eight references to one tuple with an atom of 16 N bytes
//   hostile tuple FILE N      a thousand messages of one tuple of N bytes
//   hostile flat FILE N       a thousand messages of one flat map of N bytes
//   hostile hash FILE N       a thousand messages of one hash map of N bytes
//   hostile keys FILE N       a hash map of a thousand pairs, the key of each of which is one tuple with an atom of N bytes
//   hostile slices FILE N     a thousand messages, each of a sub binary of one heap binary of N bytes
//   hostile shuffled FILE N   a list of N cells whose addresses ascend in the file, each of which leads anywhere
//   hostile budgets FILE N    a thousand messages, each of which is the list of N cells from another thousandth of it on, so that
//                             what is shown of one ends in what is shown of the next
//   hostile upwards FILE N    a list of N cells, each of which leads to the line before
//   hostile chain FILE N      N tuples, each of which leads to the line before, and a root that refers to the last of them
//   hostile one_cell FILE N   N messages of one cell
//   hostile atoms FILE N      N messages, each a quoted atom of 255 bytes
//   hostile requests FILE N   a process with N monitors, whose references differ in their last bytes, and which holds none of them
//   hostile slots FILE N      a process with N monitors and as many words on its stack, which refer to as many references that are
//                             none of theirs; an ordinary one holds what its words refer to
//   hostile references FILE N a process with a monitor and a word on its stack, and a heap of N references at the address to which
//                             that word refers
//   hostile calls FILE N      N processes, each of which waits for the next one; of ordinary ones each waits for the first
#include <stdio.h>
#include <stdlib.h>
#include <string.h>

// Each text that takes one block of each line, in order, has the same hash as the others.
static const char *blocks[16][2] = {
    {"CjfGeGUw5WP", "WsBZnOeaHhO"},
    {"FQm5_KM7q9H", "gi8pjm4tyFD"},
    {"mRLPoeTF8DJ", "BL79xdissnF"},
    {"cM35BaoKRCN", "e46JR-axQ6P"},
    {"s4zSitrXlnA", "0__QhoAVeTP"},
    {"cTFQWoRvs8M", "XWBQPPijyzF"},
    {"Mazj209fq0I", "3BgfNFRJk3H"},
    {"xgV4zA6ykGA", "cIouqN7fT7N"},
    {"LjunjwkMHGI", "2y62npYZBwO"},
    {"zNB23flaIkE", "8rrJ4Slz4qI"},
    {"R_qXjMXzFEL", "oMfFbociytE"},
    {"og5jGnGdsoJ", "08UbUOd4RDD"},
    {"uz1RBWfKWxC", "hwl4w7yY3sB"},
    {"xf28H5OBoGF", "qu6AwmQlmDA"},
    {"7NSEN7fBD5D", "_wu4o8nXrGD"},
    {"X9957ydm5-N", "3ldcnS0zJRE"},
};

// Whether the ordinary dump of the shape is written.
static int plain;

static void put_colliding(FILE *f, long n) {
    if (plain) {
        fprintf(f, "%0176ld", n);
        return;
    }
    for (int i = 0; i < 16; i++) fputs(blocks[i][n >> i & 1], f);
    if (n >> 16) fprintf(f, "%ld", n >> 16);
}

// What makes a text collide with others, or as many bytes that don't.
static const char *suffix(void) {
    return plain ? "ordinary" : "\x15\x7C\x4A\x7F\xB9\x79\x37\x9E";
}

static void put_pid(FILE *f, long n) {
    if (plain) fprintf(f, "<0.%ld.0>", n + 1);
    else fprintf(f, "%08ld%s", n % 100000000, suffix());
}

static void put_process(FILE *f, long n) {
    fprintf(f, "=proc:<0.%ld.0>\nState: Waiting\n", n);
}

static void put_heap(FILE *f) {
    put_process(f, 1);
    fprintf(f, "=proc_heap:<0.1.0>\n");
}

static void pids(FILE *f, long count) {
    for (long i = 0; i < count; i++) {
        fputs("=proc:", f);
        put_pid(f, i);
        fputs("\nState: Waiting\n", f);
    }
}

static void tags(FILE *f, long count) {
    for (long i = 0; i < count; i++) {
        fputc('=', f);
        put_colliding(f, i);
        fputc('\n', f);
    }
}

static void mailboxes(FILE *f, long count) {
    put_process(f, 1);
    for (long i = 0; i < count; i++) {
        fputs("=proc_messages:", f);
        put_colliding(f, i);
        fputc('\n', f);
    }
}

static void kinds(FILE *f, long count) {
    fputs("=proc:<0.1.0>\nLink list: [", f);
    for (long i = 0; i < count; i++) fprintf(f, "%s{to,<0.2.0>,#Ref<%08ld%s>}", i ? ", " : "", i, suffix());
    fputs("]\n=proc:<0.2.0>\nLink list: [", f);
    for (long i = 0; i < count; i++) fprintf(f, "%s{from,<0.1.0>,#Ref<%08ld%s>}", i ? ", " : "", i, suffix());
    fputs("]\n", f);
}

// A list of cells of 40 bytes each, as many as make so many bytes.
static void list(FILE *f, long bytes) {
    put_heap(f);
    long cells = bytes / 40 + 1;
    for (long i = 1; i < cells; i++) fprintf(f, "%012lX:lI%08ld|H%012lX\n", 16 * i, i % 100000000, 16 * (i + 1));
    fprintf(f, "%012lX:lI1|N\n", 16 * cells);
}

static void references(FILE *f, const char *to, long count) {
    fprintf(f, "10:t%lX:", count);
    for (long i = 0; i < count; i++) fprintf(f, "%sH%s", i ? "," : "", to);
    fputc('\n', f);
}

static void payload(FILE *f, long bytes) {
    if (plain) {
        list(f, bytes);
        return;
    }
    put_heap(f);
    references(f, "20", 1000);
    fprintf(f, "20:Yh%lX:", bytes / 3 * 3);
    for (long i = 0; i < bytes / 3; i++) fputs("aGVs", f);
    fputc('\n', f);
}

static void external(FILE *f, long bytes) {
    if (plain) {
        list(f, bytes);
        return;
    }
    put_heap(f);
    references(f, "20", 1000);
    fprintf(f, "20:E%lX:", bytes / 3 * 3);
    for (long i = 0; i < bytes / 3; i++) fputs("g2FB", f);
    fputc('\n', f);
}

static void subs(FILE *f, long count) {
    if (plain) {
        list(f, 220 * count);
        return;
    }
    put_heap(f);
    fprintf(f, "1:t%lX:", 100 * count);
    for (long i = 0; i < 100 * count; i++) fputs(i ? ",N" : "N", f);
    fputc('\n', f);
    for (long i = 0; i < count; i++) fprintf(f, "%lX:Ys1:0:1\n", 16 * (i + 1));
}

static void one_address(FILE *f, long count) {
    put_heap(f);
    for (long i = 0; i < count; i++) fprintf(f, "%lX:lI%08ld|N\n", plain ? 16 * (i + 1) : 16, i % 100000000);
}

static void falling(FILE *f, long count) {
    if (plain) {
        list(f, 40 * count);
        return;
    }
    put_heap(f);
    for (long i = count; i > 1; i--) fprintf(f, "%lX:lI%08ld|H%lX\n", 16 * i, i % 100000000, 16 * (i - 1));
    fputs("10:lI1|N\n", f);
}

static void commas(FILE *f, long count) {
    fputs("=proc:<0.1.0>\nLink list: [", f);
    for (long i = 0; i < count; i++) fputs(plain ? "x, " : ", ", f);
    fputs("]\n", f);
}

static void equals(FILE *f, long count) {
    for (long i = 0; i < count; i++) fputs(plain ? "=proc_heap\n" : "=\n", f);
}

static void roots(FILE *f, long count) {
    put_process(f, 1);
    fputs("=proc_stack:<0.1.0>\n", f);
    for (long i = 0; i < count; i++) fprintf(f, plain ? "y%ld:N\n" : "y%ld:H10\n", i);
    fputs("=proc_heap:<0.1.0>\n", f);
    for (long i = 1; i < count; i++) fprintf(f, "%lX:lI1|H%lX\n", 16 * i, 16 * (i + 1));
    fprintf(f, "%lX:lI1|N\n", 16 * count);
}

static void one_pid(FILE *f, long count) {
    for (long i = 0; i < count; i++) put_process(f, plain ? i + 1 : 1);
}

static void star(FILE *f, long count) {
    for (long i = 1; plain && i <= count; i++) fprintf(f, "=proc:<0.%ld.0>\nLink list: [<0.%ld.0>, <0.%ld.0>]\n", i, i - 1, i + 1);
    if (plain) return;
    fputs("=proc:<0.1.0>\nLink list: [", f);
    for (long i = 2; i <= count; i++) fprintf(f, "%s<0.%ld.0>", i > 2 ? ", " : "", i);
    fputs("]\n", f);
    for (long i = 2; i <= count; i++) fprintf(f, "=proc:<0.%ld.0>\nLink list: [<0.1.0>]\n", i);
}

static void letters(FILE *f, long count) {
    put_heap(f);
    for (long i = 0; i < count; i++) fputs(plain ? "X\n" : "Y\n", f);
}

static void marks(FILE *f, long count) {
    put_heap(f);
    for (long i = 0; i < count; i++) fputs(plain ? "1:Xh\n" : "1:Yh\n", f);
}

static void frames(FILE *f, long count) {
    for (long i = 0; i < count; i++) {
        fprintf(f, "=proc:<0.%ld.0>\nState: Waiting\n=proc_stack:<0.%ld.0>\n", i, i);
        for (int k = 0; k < 20; k++) fprintf(f, "y0:S%0255ld\n", k == (plain ? 0 : 19) ? i : 0);
    }
}

static void states(FILE *f, long count) {
    for (long i = 0; i < count; i++) fprintf(f, "=proc:<0.%ld.0>\nState: %0100d%08ld\n", i + 1, 0, plain ? 0 : i);
}

// Processes each of which stands at a place of its own; ordinary ones stand at one place. What it was spawned as
// differs behind 200 bytes that are alike.
static void places(FILE *f, long count) {
    for (long i = 0; i < count; i++)
        fprintf(f, "=proc:<0.%ld.0>\nSpawned as: %0200d%08ld\nCurrent call: a:b/%08ld\n", i + 1, 0, plain ? 0 : i, plain ? 0 : i);
}

// Ports each of which is of its own kind; ordinary ones are of one.
static void port_kinds(FILE *f, long count) {
    for (long i = 0; i < count; i++) fprintf(f, "=port:#Port<0.%ld>\nPort controls linked-in driver: %0200d%08ld\n", i + 1, 0, plain ? 0 : i);
}

static void numbers(FILE *f, long count) {
    put_heap(f);
    for (long i = 0; i < count; i++) fprintf(f, "%012lX:Yc%lX:0:3\n", 16 * (i + 1), plain ? i + 1 : 1);
    for (long i = 0; i < count; i++) fprintf(f, "=binary:%lX\n3:AAAA\n", plain ? i + 1 : 1);
}

// An external term of these bytes, in base64.
static void put_encoded(FILE *f, const unsigned char *bytes, long count) {
    static const char digits[] = "ABCDEFGHIJKLMNOPQRSTUVWXYZabcdefghijklmnopqrstuvwxyz0123456789+/";
    fprintf(f, "E%lX:", count);
    for (long i = 0; i < count; i += 3) {
        unsigned long group = (unsigned long)bytes[i] << 16;
        if (i + 1 < count) group |= (unsigned long)bytes[i + 1] << 8;
        if (i + 2 < count) group |= bytes[i + 2];
        fputc(digits[group >> 18], f);
        fputc(digits[group >> 12 & 63], f);
        fputc(i + 1 < count ? digits[group >> 6 & 63] : '=', f);
        fputc(i + 2 < count ? digits[group & 63] : '=', f);
    }
    fputc('\n', f);
}

// A heap of one cell of these bytes.
static void put_external(FILE *f, const unsigned char *bytes, long count) {
    put_heap(f);
    fputs("10:", f);
    put_encoded(f, bytes, count);
}

static unsigned char *put_count(unsigned char *to, unsigned char tag, unsigned long count) {
    *to++ = tag;
    for (int shift = 24; shift >= 0; shift -= 8) *to++ = count >> shift & 255;
    return to;
}

// An external term of so many bytes: a hostile one, or an ordinary one, which is a list of small numbers.
static void terms(FILE *f, long count, void (*write)(unsigned char *bytes, long count)) {
    unsigned char *bytes = malloc(count + 1);
    if (!bytes) exit(1);
    if (plain) {
        long numbers = (count - 7) / 2;
        count = 7 + 2 * numbers;
        bytes[0] = 131;
        unsigned char *to = put_count(bytes + 1, 108, numbers);
        for (long i = 0; i < numbers; i++) *to++ = 97, *to++ = i & 255;
        *to = 106;
    } else {
        write(bytes, count);
    }
    put_external(f, bytes, count);
    free(bytes);
}

static void write_nested(unsigned char *bytes, long count) {
    long levels = (count - 2) / 6;
    memset(bytes, 106, count);
    bytes[0] = 131;
    for (long i = 0; i < levels; i++) put_count(bytes + 1 + 5 * i, 108, 1);
}

// Lists of one element, each in the one before.
static void nested(FILE *f, long count) { terms(f, 2 + 6 * count, write_nested); }

static void write_counts(unsigned char *bytes, long count) {
    bytes[0] = 131;
    for (long i = 0; i < count / 5; i++) put_count(bytes + 1 + 5 * i, 105, 4294967295);
}

// Tuples that want as many elements as a tuple can, of which only the first stands there.
static void counts(FILE *f, long count) { terms(f, 1 + 5 * count, write_counts); }

static void write_quoted(unsigned char *bytes, long count) {
    long atoms = (count - 7) / 65538;
    memset(bytes, '\'', count);
    bytes[0] = 131;
    put_count(bytes + 1, 108, atoms);
    for (long i = 0; i < atoms; i++) memcpy(bytes + 6 + 65538 * i, "v\xFF\xFF", 3);
    bytes[count - 1] = 106;
}

// Atoms of as many bytes as an atom can have, each of which is quoted.
static void quoted(FILE *f, long count) { terms(f, 7 + 65538 * count, write_quoted); }

// A mailbox of so many messages: the message by its number.
static void mailbox(FILE *f, long count, void (*put)(FILE *f, long n)) {
    put_process(f, 1);
    fputs("=proc_messages:<0.1.0>\n", f);
    for (long i = 0; i < count; i++) put(f, i), fputs(":N\n", f);
}

static void put_first(FILE *f, long n) { (void)n, fputs("H10", f); }

static void put_small(FILE *f, long n) { fprintf(f, "I%ld", n); }

static void put_own(FILE *f, long n) { fprintf(f, "H%lX", 16 * (n + 2)); }

// An atom of so many bytes.
static void put_atom(FILE *f, long bytes) {
    fprintf(f, "A%lX:", bytes);
    for (long i = 0; i < bytes; i++) fputc('a', f);
}

// Numbers between commas, so many of them.
static void put_numbers(FILE *f, long count) {
    for (long i = 0; i < count; i++) fputs(i ? ",I1" : "I1", f);
}

// As many small messages, and a list of so many bytes: the ordinary dump of those with messages.
static void ordinary(FILE *f, long messages, long bytes) {
    mailbox(f, messages, put_small);
    list(f, bytes);
}

static void inner(FILE *f, long count) {
    if (plain) {
        ordinary(f, 1, 42 * count);
        return;
    }
    long nodes = 3 * count / 4;
    mailbox(f, 1, put_first);
    put_heap(f);
    fprintf(f, "10:t%lX:", nodes);
    for (long i = 0; i < nodes; i++) fprintf(f, "%sH%lX", i ? "," : "", 16 * (i + 2));
    fputc('\n', f);
    for (long i = 0; i < nodes; i++) fprintf(f, "%lX:Mn1:H%lX\n", 16 * (i + 2), 16 * (nodes + 2));
    for (long i = 0; i < count; i++) {
        fprintf(f, "%lX:lI1|", 16 * (nodes + i + 2));
        if (i + 1 < count) fprintf(f, "H%lX\n", 16 * (nodes + i + 3));
        else fputs("N\n", f);
    }
}

static void one_text(FILE *f, long count) {
    if (plain) {
        ordinary(f, count, count);
        return;
    }
    mailbox(f, count, put_first);
    put_heap(f);
    fputs("10:t1:", f);
    put_atom(f, count);
    fputc('\n', f);
}

// An ordinary one has as many references to as many tuples, and an atom of four bytes.
static void texts(FILE *f, long count) {
    mailbox(f, count, put_own);
    put_heap(f);
    fputs("10:t1:", f);
    put_atom(f, plain ? 4 : 16 * count);
    fputc('\n', f);
    for (long i = 0; i < count; i++) fprintf(f, "%lX:t8:H10,H10,H10,H10,H10,H10,H10,H10\n", 16 * (i + 2));
}

static void tuple(FILE *f, long bytes) {
    if (plain) {
        ordinary(f, 1000, bytes);
        return;
    }
    mailbox(f, 1000, put_first);
    put_heap(f);
    fprintf(f, "10:t%lX:", bytes / 3);
    put_numbers(f, bytes / 3);
    fputc('\n', f);
}

static void flat(FILE *f, long bytes) {
    if (plain) {
        ordinary(f, 1000, bytes);
        return;
    }
    mailbox(f, 1000, put_first);
    put_heap(f);
    fprintf(f, "10:Mf%lX:H20:", bytes / 6);
    put_numbers(f, bytes / 6);
    fprintf(f, "\n20:t%lX:", bytes / 6);
    put_numbers(f, bytes / 6);
    fputc('\n', f);
}

static void hash(FILE *f, long bytes) {
    if (plain) {
        ordinary(f, 1000, bytes);
        return;
    }
    mailbox(f, 1000, put_first);
    put_heap(f);
    fprintf(f, "10:Mh%lX:%lX:", bytes / 4, bytes / 4);
    for (long i = 0; i < bytes / 4; i++) fputs(i ? ",H20" : "H20", f);
    fputs("\n20:lI1|I1\n", f);
}

static void keys(FILE *f, long bytes) {
    if (plain) {
        ordinary(f, 1000, bytes);
        return;
    }
    put_heap(f);
    fputs("10:Mh3E8:3E8:", f);
    for (long i = 0; i < 1000; i++) fprintf(f, "%sH%lX", i ? "," : "", 16 * (i + 3));
    fputs("\n20:t1:", f);
    put_atom(f, bytes);
    fputc('\n', f);
    for (long i = 0; i < 1000; i++) fprintf(f, "%lX:lH20|I1\n", 16 * (i + 3));
}

static void slices(FILE *f, long bytes) {
    if (plain) {
        ordinary(f, 1000, bytes);
        return;
    }
    mailbox(f, 1000, put_own);
    put_heap(f);
    fprintf(f, "10:Yh%lX:", bytes / 4 * 3);
    for (long i = 0; i < bytes / 4; i++) fputs("aGVs", f);
    fputc('\n', f);
    for (long i = 0; i < 1000; i++) fprintf(f, "%lX:Ys10:%lX:3\n", 16 * (i + 2), i);
}

static void shuffled(FILE *f, long count) {
    mailbox(f, 1, put_first);
    put_heap(f);
    // The order of the list, from the first cell on, and behind each cell the next.
    long *order = malloc(count * sizeof *order), *next = malloc(count * sizeof *next);
    if (!order || !next) exit(1);
    for (long i = 0; i < count; i++) order[i] = i;
    unsigned long random = 1;
    for (long i = count - 1; i > 1 && !plain; i--) {
        random = random * 6364136223846793005 + 1442695040888963407;
        long other = 1 + (random >> 33) % i, held = order[i];
        order[i] = order[other];
        order[other] = held;
    }
    for (long i = 0; i + 1 < count; i++) next[order[i]] = order[i + 1];
    next[order[count - 1]] = -1;
    for (long i = 0; i < count; i++) {
        fprintf(f, "%lX:lI%08ld|", 16 * (i + 1), i % 100000000);
        if (next[i] < 0) fputs("N\n", f);
        else fprintf(f, "H%lX\n", 16 * (next[i] + 1));
    }
    free(order);
    free(next);
}

// How many cells the list of `budgets` has.
static long cells;

static void put_thousandth(FILE *f, long n) { fprintf(f, "H%lX", 16 * (n * (cells / 1000) + 1)); }

static void budgets(FILE *f, long count) {
    cells = count;
    mailbox(f, 1000, put_thousandth);
    if (!plain) {
        list(f, 40 * (count - 1));
        return;
    }
    // A thousand lists of their own, one behind the other.
    put_heap(f);
    for (long i = 1; i <= count; i++) {
        fprintf(f, "%012lX:lI%08ld|", 16 * i, i % 100000000);
        if (i % (count / 1000)) fprintf(f, "H%012lX\n", 16 * (i + 1));
        else fputs("N\n", f);
    }
}

static void upwards(FILE *f, long count) {
    if (plain) {
        ordinary(f, 1, 40 * count);
        return;
    }
    mailbox(f, 1, put_first);
    put_heap(f);
    for (long i = 1; i < count; i++) {
        fprintf(f, "%lX:lI%08ld|", 16 * (i + 1), i % 100000000);
        if (i == 1) fputs("N\n", f);
        else fprintf(f, "H%lX\n", 16 * i);
    }
    fprintf(f, "10:lI1|H%lX\n", 16 * count);
}

static void chain(FILE *f, long count) {
    if (plain) {
        ordinary(f, 1, 40 * count);
        return;
    }
    put_process(f, 1);
    fprintf(f, "=proc_stack:<0.1.0>\ny0:H%lX\n=proc_heap:<0.1.0>\n10:t1:I1\n", 16 * count);
    for (long i = 2; i <= count; i++) fprintf(f, "%lX:t1:H%lX\n", 16 * i, 16 * (i - 1));
}

static void one_cell(FILE *f, long count) {
    if (plain) {
        ordinary(f, count, 40);
        return;
    }
    mailbox(f, count, put_first);
    put_heap(f);
    fputs("10:t1:I1\n", f);
}

static void put_quoted_atom(FILE *f, long n) {
    fputs("AFF:", f);
    for (int i = 0; i < 246; i++) fputc(plain ? 'a' : '\'', f);
    fprintf(f, "%09ld", n);
}

static void atoms(FILE *f, long count) {
    mailbox(f, count, put_quoted_atom);
    list(f, 40);
}

// A line of a heap with a reference, whose text has this number behind its first.
static void put_reference(FILE *f, long address, unsigned long n) {
    unsigned char bytes[23] = {131, 90, 0, 3, 119, 1, 'a', 0, 0, 0, 1, 0, 0, 0, 1, 0, 0, 0, 2};
    for (int i = 0; i < 4; i++) bytes[19 + i] = n >> (24 - 8 * i) & 255;
    fprintf(f, "%lX:", address);
    put_encoded(f, bytes, 23);
}

// A process with so many monitors of another. Behind the first number of each reference stands its own number first, or last.
static void put_monitors(FILE *f, long count, int first) {
    fputs("=proc:<0.1.0>\nState: Waiting\nLink list: [", f);
    for (long i = 0; i < count; i++)
        fprintf(f, first ? "%s{to,<0.2.0>,#Ref<0.%ld.2.1>}" : "%s{to,<0.2.0>,#Ref<0.1.2.3.4.5.%ld>}", i ? ", " : "", i + 1);
    fputs("]\n", f);
}

static void requests(FILE *f, long count) {
    put_monitors(f, count, plain);
    fputs("=proc_stack:<0.1.0>\ny0:H10\n=proc_heap:<0.1.0>\n", f);
    put_reference(f, 16, 1);
}

static void slots(FILE *f, long count) {
    put_monitors(f, count, plain);
    fputs("=proc_stack:<0.1.0>\n", f);
    for (long i = 0; i < count; i++) fprintf(f, "y%ld:H%lX\n", i, 16 * (i + 1));
    fputs("=proc_heap:<0.1.0>\n", f);
    for (long i = 0; i < count; i++) put_reference(f, 16 * (i + 1), i + 1);
}

static void same_slot(FILE *f, long count) {
    put_monitors(f, 1, 1);
    fputs("=proc_stack:<0.1.0>\ny0:H10\n=proc_heap:<0.1.0>\n", f);
    for (long i = 0; i < count; i++) put_reference(f, plain ? 16 * (i + 1) : 16, i + 2);
}

static void calls(FILE *f, long count) {
    for (long i = 0; i < count; i++) {
        long target = plain || i + 1 == count ? 0 : i + 1;
        fprintf(f, "=proc:<0.%ld.0>\nState: Waiting\nLink list: [{to,<0.%ld.0>,#Ref<0.%ld.2.1>}]\n", i, target, i + 1);
        fprintf(f, "=proc_stack:<0.%ld.0>\ny0:H10\n=proc_heap:<0.%ld.0>\n", i, i);
        put_reference(f, 16, i + 1);
    }
}

static const struct {
    const char *name;
    void (*write)(FILE *f, long count);
} shapes[] = {
    {"pids", pids}, {"tags", tags}, {"mailboxes", mailboxes}, {"kinds", kinds}, {"payload", payload}, {"external", external},
    {"subs", subs}, {"address", one_address}, {"falling", falling}, {"commas", commas}, {"equals", equals}, {"roots", roots},
    {"one_pid", one_pid}, {"star", star}, {"nested", nested}, {"counts", counts}, {"quoted", quoted},
    {"letters", letters}, {"marks", marks}, {"states", states}, {"places", places}, {"port_kinds", port_kinds}, {"frames", frames}, {"numbers", numbers},
    {"inner", inner}, {"one_text", one_text}, {"texts", texts}, {"tuple", tuple}, {"flat", flat}, {"hash", hash}, {"keys", keys},
    {"slices", slices}, {"shuffled", shuffled}, {"budgets", budgets}, {"upwards", upwards}, {"chain", chain}, {"one_cell", one_cell}, {"atoms", atoms},
    {"requests", requests}, {"slots", slots}, {"references", same_slot}, {"calls", calls},
};

int main(int count, char **words) {
    if (count > 1 && !strcmp(words[1], "plain")) {
        plain = 1;
        words++;
        count--;
    }
    if (count == 4) {
        for (size_t i = 0; i < sizeof shapes / sizeof *shapes; i++) {
            if (strcmp(words[1], shapes[i].name)) continue;
            FILE *f = fopen(words[2], "w");
            if (!f) return 1;
            fputs("=erl_crash_dump:0.5\nSlogan: hostile\n", f);
            shapes[i].write(f, atol(words[3]));
            fputs("=end\n", f);
            return fclose(f) != 0;
        }
    }
    fputs("usage: hostile [plain] SHAPE FILE COUNT\n", stderr);
    return 2;
}
