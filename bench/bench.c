// What the benchmark needs beside edump: a dump of a stated size, a plain scan to compare with, and the
// measure of a command.
//
//   bench write FILE BYTES SECTIONS   writes a dump of so many bytes and sections, heap lines of about 40 bytes
//   bench procs FILE BYTES PROCESSES  writes a dump of so many bytes and processes, each with a body of about 300
//                                     bytes and a heap, and prints how many bytes a process table keeps of them
//   bench stacks FILE PROCESSES       writes a dump of so many processes, each with ten infos on its stack, at fifty places in all
//   bench waits FILE PROCESSES        writes a dump of so many processes, each with one monitor, whose reference it holds in the
//                                     first frame of a stack of ten words, and a heap of ten lines
//   bench list FILE CELLS ORDER       writes a dump with one process, whose dictionary refers to its first cell, and whose
//                                     heap is a list of so many cells, 40 bytes each with their LF; with ORDER 1 their
//                                     addresses stand in no order
//   bench tuples FILE CELLS           the same with tuples, each inside the one before
//   bench graph FILE CELLS            the same with tuples, each of which leads to the next one and to another at random
//   bench binaries FILE CELLS BINS    the same with references to binaries, over so many sections of binaries
//   bench holders FILE BYTES PROCESSES BINS  writes a dump of so many bytes of heaps and so many processes, of which each has five
//                                     references to binaries among its heap's lines, over so many sections of binaries
//   bench repeated FILE BYTES         writes a dump of one process, whose heap is so many bytes of a hundred lines that repeat, four
//                                     of them references to binaries
//   bench links FILE BYTES PROCESSES  writes a dump of so many bytes and processes, each with five links and monitors
//                                     and a heap
//   bench lonely FILE PROCESSES       writes a dump of so many processes, each with five links of which the partners know nothing
//   bench star FILE LINKS             writes a dump of a process with so many links, whose partners have one each
//   bench payloads FILE BYTES SIZE    writes a dump of so many bytes: half heaps, of whose lines each twentieth is a binary
//                                     on the heap, and half sections of binaries of that size, a multiple of 3
//   bench copy FILE                   reads the file twice and writes it once, in pieces of 64 KiB
//   bench scan FILE                   counts the headers: reads of 64 KiB, memchr for `=`, the byte before
//   bench reread FILE KINDS LOOK      does so, and then reads the sections of processes, with KINDS 2 those of heaps too, and with
//                                     KINDS 3 also 17 bytes of each binary's, as `edump procs` and `edump binaries` do; with
//                                     LOOK 1 it also counts what in the heaps looks like a reference
//   bench measure OUT COMMAND WORDS.. runs a command, its output into the file OUT, and prints the seconds that it
//                                     took and the most memory that it had, in KiB
#define _GNU_SOURCE
#include <fcntl.h>
#include <stdio.h>
#include <stdlib.h>
#include <string.h>
#include <sys/resource.h>
#include <sys/wait.h>
#include <time.h>
#include <unistd.h>

static int write_dump(const char *name, long bytes, long sections) {
    FILE *f = fopen(name, "w");
    if (!f) return 1;
    long at = fprintf(f, "=erl_crash_dump:0.5\nSlogan: a benchmark\n");
    for (long i = 1; i < sections - 1; i++) {
        long until = bytes / sections * (i + 1);
        at += fprintf(f, "=proc_heap:<0.%ld.0>\n", i);
        while (at < until)
            at += fprintf(f, "%012lX:lI%08ld|H%012lX\n", at, at % 100000000, at + 16);
    }
    fprintf(f, "=end\n");
    return fclose(f) != 0;
}

// The body of a process, of which the table keeps the pid and five values: their bytes are counted.
static long write_process(FILE *f, long i, long *kept) {
    char pid[40], name[40], links[120], memory[40];
    *kept += sprintf(pid, "<0.%ld.0>", i) + sprintf(name, "worker_%07ld", i) + sprintf(memory, "%ld", 2640 + i % 1000);
    *kept += sprintf(links, "[<0.%ld.0>, {to,<0.%ld.0>,#Ref<0.1.2.%ld>}]", i + 1, i + 2, i) + strlen("Waiting") + strlen("0");
    return fprintf(f, "=proc:%s\nState: Waiting\nName: %s\nSpawned as: proc_lib:init_p/5\nRun queue: %ld\nSpawned by: <0.%ld.0>\n"
        "Message queue length: 0\nLink list: %s\nReductions: %ld\nStack+heap: 233\nOldHeap: 0\nHeap unused: 100\n"
        "OldHeap unused: 0\nMemory: %s\n", pid, name, i % 8, i - 1, links, i * 7, memory);
}

static int write_processes(const char *name, long bytes, long count) {
    FILE *f = fopen(name, "w");
    if (!f) return 1;
    long kept = 0, at = fprintf(f, "=erl_crash_dump:0.5\nSlogan: a benchmark\n");
    for (long i = 1; i <= count; i++) {
        long until = bytes / count * i;
        at += write_process(f, i, &kept);
        at += fprintf(f, "=proc_heap:<0.%ld.0>\n", i);
        while (at < until)
            at += fprintf(f, "%012lX:lI%08ld|H%012lX\n", at, at % 100000000, at + 16);
    }
    fprintf(f, "=end\n");
    printf("%ld\n", kept);
    return fclose(f) != 0;
}

static int write_stacks(const char *name, long count) {
    FILE *f = fopen(name, "w");
    if (!f) return 1;
    long kept = 0;
    fprintf(f, "=erl_crash_dump:0.5\nSlogan: a benchmark\n");
    for (long i = 1; i <= count; i++) write_process(f, i, &kept);
    for (long i = 1; i <= count; i++) {
        fprintf(f, "=proc_stack:<0.%ld.0>\n", i);
        for (long k = 0; k < 10; k++)
            fprintf(f, "0x%016lX:SReturn addr 0x%016lX (module_%ld:function_%ld/2 + %ld)\ny0:I%ld\n", i * 4096 + k * 16,
                i * 7 % 50 * 4096 + k * 64, i * 7 % 50, k, k * 64, i);
    }
    fprintf(f, "=end\n");
    return fclose(f) != 0;
}

// The line of the reference whose text the process with this number has in its link list.
static void write_reference(FILE *f, long address, unsigned long i) {
    static const char digits[] = "ABCDEFGHIJKLMNOPQRSTUVWXYZabcdefghijklmnopqrstuvwxyz0123456789+/";
    unsigned char bytes[24] = {131, 90, 0, 3, 119, 1, 'a', 0, 0, 0, 1, 0, 0, 0, 0, 0, 0, 0, 2, 0, 0, 0, 1};
    for (int k = 0; k < 4; k++) bytes[11 + k] = i >> (24 - 8 * k) & 255;
    char text[33] = {0};
    for (int k = 0; k < 8; k++) {
        unsigned long three = bytes[3 * k] << 16 | bytes[3 * k + 1] << 8 | bytes[3 * k + 2];
        for (int d = 0; d < 4; d++) text[4 * k + d] = digits[three >> (18 - 6 * d) & 63];
    }
    text[31] = '=';
    fprintf(f, "%012lX:E17:%s\n", address, text);
}

static int write_waits(const char *name, long count) {
    FILE *f = fopen(name, "w");
    if (!f) return 1;
    long kept = 0;
    fprintf(f, "=erl_crash_dump:0.5\nSlogan: a benchmark\n");
    for (long i = 1; i <= count; i++) write_process(f, i, &kept);
    for (long i = 1; i <= count; i++) {
        fprintf(f, "=proc_stack:<0.%ld.0>\n0x%016lX:SReturn addr 0x%016lX (gen:do_call/4 + 312)\ny0:H%012lX\ny1:I%ld\ny2:[]\ny3:I1\ny4:I2\n", i,
            i * 4096, 4096L, i * 4096, i);
        fprintf(f, "0x%016lX:SReturn addr 0x%016lX (worker:ask/2 + 80)\ny0:[]\ny1:I3\ny2:I4\n", i * 4096 + 48, 8192L);
        fprintf(f, "=proc_heap:<0.%ld.0>\n", i);
        write_reference(f, i * 4096, i);
        for (long k = 1; k < 10; k++) fprintf(f, "%012lX:lI%08ld|H%012lX\n", i * 4096 + 16 * k, k, i * 4096 + 16 * (k + 1));
    }
    fprintf(f, "=end\n");
    return fclose(f) != 0;
}

static FILE *begin_process(const char *name) {
    FILE *f = fopen(name, "w");
    if (f) fprintf(f, "=erl_crash_dump:0.5\n=proc:<0.1.0>\nState: Waiting\n=proc_dictionary:<0.1.0>\nH10\n=proc_heap:<0.1.0>\n");
    return f;
}

static int end_dump(FILE *f) {
    fprintf(f, "=end\n");
    return fclose(f) != 0;
}

// The address of the cell with a number from 0: in order, or each of 2^24 once in no order.
static long address(long i, int shuffled) {
    return ((shuffled ? i * 2654435761 % 16777216 : i) + 1) * 16;
}

static int write_list(const char *name, long cells, int shuffled) {
    FILE *f = begin_process(name);
    if (!f) return 1;
    for (long i = 0; i + 1 < cells; i++)
        fprintf(f, "%012lX:lI%010ld|H%012lX\n", address(i, shuffled), i, address(i + 1, shuffled));
    fprintf(f, "%012lX:lI%010ld|N\n", address(cells - 1, shuffled), cells);
    return end_dump(f);
}

// Lists of a hundred cells, in lines of 40 bytes, and messages that refer to some of them.
static int write_messages(const char *name, long cells, long messages) {
    FILE *f = fopen(name, "w");
    if (!f) return 1;
    fprintf(f, "=erl_crash_dump:0.5\n=proc:<0.1.0>\nState: Waiting\n=proc_messages:<0.1.0>\n");
    for (long i = 0; i < messages; i++) fprintf(f, "H%lX:N\n", address(cells / 100 * i / messages * 100, 0));
    fprintf(f, "=proc_heap:<0.1.0>\n");
    for (long i = 0; i < cells; i++) {
        if (i % 100 < 99) fprintf(f, "%012lX:lI%010ld|H%012lX\n", address(i, 0), i, address(i + 1, 0));
        else fprintf(f, "%012lX:lI%022ld|N\n", address(i, 0), i);
    }
    return end_dump(f);
}

static int write_tuples(const char *name, long cells) {
    FILE *f = begin_process(name);
    if (!f) return 1;
    for (long i = 0; i + 1 < cells; i++)
        fprintf(f, "%012lX:t2:H%012lX,I%08ld\n", address(i, 0), address(i + 1, 0), i);
    fprintf(f, "%012lX:t0:\n", address(cells - 1, 0));
    return end_dump(f);
}

// The next number of a row that looks random.
static unsigned long random_after(unsigned long random) {
    return random * 6364136223846793005 + 1442695040888963407;
}

static int write_graph(const char *name, long cells) {
    FILE *f = begin_process(name);
    unsigned long random = 1;
    if (!f) return 1;
    for (long i = 0; i < cells; i++) {
        random = random_after(random);
        fprintf(f, "%012lX:t2:H%012lX,H%012lX\n", address(i, 0), address((i + 1) % cells, 0), address((random >> 20) % cells, 0));
    }
    return end_dump(f);
}

static void write_binary_sections(FILE *f, long bins) {
    for (long i = 0; i < bins; i++)
        fprintf(f, "=binary:%lX\n30:QUJDREVGR0hJSktMTU5PUFFSU1RVVldYWVphYmNkZWZnaGlqa2xtbm9wcXJzdHV2\n", i * 16 + 16);
}

static int write_binaries(const char *name, long cells, long bins) {
    FILE *f = begin_process(name);
    if (!f) return 1;
    for (long i = 0; i < cells; i++)
        fprintf(f, "%012lX:Yc%lX:%lX:8\n", address(i, 0), i % bins * 16 + 16, i % 32);
    write_binary_sections(f, bins);
    return end_dump(f);
}

static int write_holders(const char *name, long bytes, long count, long bins) {
    FILE *f = fopen(name, "w");
    if (!f) return 1;
    unsigned long random = 1;
    long at = fprintf(f, "=erl_crash_dump:0.5\nSlogan: a benchmark\n");
    for (long i = 1; i <= count; i++) {
        long until = bytes / count * i;
        at += fprintf(f, "=proc:<0.%ld.0>\nState: Waiting\nMessage queue length: 0\nMemory: %ld\n", i, 2640 + i % 1000);
        at += fprintf(f, "=proc_heap:<0.%ld.0>\n", i);
        for (int k = 0; k < 5; k++) {
            random = random_after(random);
            at += fprintf(f, "%012lX:Yc%lX:0:30\n", at, (random >> 20) % bins * 16 + 16);
        }
        while (at < until)
            at += fprintf(f, "%012lX:lI%08ld|H%012lX\n", at, at % 100000000, at + 16);
    }
    write_binary_sections(f, bins);
    return end_dump(f);
}

static int write_repeated(const char *name, long bytes) {
    FILE *f = begin_process(name);
    if (!f) return 1;
    for (long at = 0, i = 0; at < bytes; i++) {
        long n = i % 100;
        at += n % 25 ? fprintf(f, "%012lX:lI%08ld|H%012lX\n", address(n, 0), n, address(n + 1, 0))
                     : fprintf(f, "%012lX:Yc%lX:0:30\n", address(n, 0), n * 16 + 16);
    }
    write_binary_sections(f, 100);
    return end_dump(f);
}

static int write_links(const char *name, long bytes, long count) {
    FILE *f = fopen(name, "w");
    if (!f) return 1;
    long at = fprintf(f, "=erl_crash_dump:0.5\nSlogan: a benchmark\n");
    for (long i = 1; i <= count; i++) {
        long until = bytes / count * i, next = i % count + 1, previous = (i + count - 2) % count + 1;
        at += fprintf(f, "=proc:<0.%ld.0>\nState: Waiting\nMessage queue length: 0\nLink list: [<0.%ld.0>, <0.%ld.0>, "
            "{to,<0.%ld.0>,#Ref<0.1.2.%ld>}, {from,<0.%ld.0>,#Ref<0.1.2.%ld>}, #Port<0.%ld>]\nMemory: 2640\n",
            i, next, previous, next, i, previous, previous, i);
        at += fprintf(f, "=proc_heap:<0.%ld.0>\n", i);
        while (at < until)
            at += fprintf(f, "%012lX:lI%08ld|H%012lX\n", at, at % 100000000, at + 16);
    }
    return end_dump(f);
}

static int write_lonely(const char *name, long count) {
    FILE *f = fopen(name, "w");
    if (!f) return 1;
    fprintf(f, "=erl_crash_dump:0.5\nSlogan: a benchmark\n");
    for (long i = 0; i < count; i++) {
        fprintf(f, "=proc:<0.%ld.0>\nState: Waiting\nMessage queue length: 0\nLink list: [", i);
        for (long k = 1; k <= 5; k++)
            fprintf(f, "%s<0.%ld.0>", k > 1 ? ", " : "", (i + k) % count);
        fprintf(f, "]\nMemory: 2640\n");
    }
    return end_dump(f);
}

static int write_star(const char *name, long links) {
    FILE *f = fopen(name, "w");
    if (!f) return 1;
    fprintf(f, "=erl_crash_dump:0.5\n=proc:<0.1.0>\nLink list: [");
    for (long i = 1; i <= links; i++)
        fprintf(f, "%s<0.%ld.0>", i > 1 ? ", " : "", i + 1);
    fprintf(f, "]\n");
    for (long i = 1; i <= links; i++)
        fprintf(f, "=proc:<0.%ld.0>\nLink list: [<0.1.0>]\n", i + 1);
    return end_dump(f);
}

// An external term: a list of so many tuples of an atom and two numbers.
static int write_external(const char *name, long count) {
    FILE *f = fopen(name, "w");
    if (!f) return 1;
    fprintf(f, "\x83l%c%c%c%c", (int)(count >> 24 & 255), (int)(count >> 16 & 255), (int)(count >> 8 & 255), (int)(count & 255));
    for (long i = 0; i < count; i++) {
        fputs("h\x03w\x02oka", f);
        fputc(i & 255, f);
        fprintf(f, "b%c%c%c%c", (int)(i >> 24 & 255), (int)(i >> 16 & 255), (int)(i >> 8 & 255), (int)(i & 255));
    }
    fputc('j', f);
    return fclose(f) != 0;
}

static int write_payloads(const char *name, long bytes, long size) {
    static const char digits[] = "ABCDEFGHIJKLMNOPQRSTUVWXYZabcdefghijklmnopqrstuvwxyz0123456789+/";
    FILE *f = fopen(name, "w");
    if (!f) return 1;
    unsigned long random = 1;
    long at = fprintf(f, "=erl_crash_dump:0.5\nSlogan: a benchmark\n");
    for (long i = 1; at < bytes / 2; i++) {
        long until = at + 200000;
        at += fprintf(f, "=proc_heap:<0.%ld.0>\n", i);
        for (long line = 1; at < until; line++)
            at += line % 20 ? fprintf(f, "%012lX:lI%08ld|H%012lX\n", at, at % 100000000, at + 16)
                            : fprintf(f, "%012lX:Yh18:QUJDREVGR0hJSktMTU5PUFFSU1RVVldY\n", at);
    }
    for (long i = 1; at < bytes; i++) {
        at += fprintf(f, "=binary:%lX\n%lX:", i * 16, size) + size / 3 * 4 + 1;
        for (long n = size / 3 * 4; n > 0; n--) {
            random = random_after(random);
            putc_unlocked(digits[random >> 58], f);
        }
        putc('\n', f);
    }
    return end_dump(f);
}

static int copy(const char *name) {
    static char piece[65536];
    int f = open(name, O_RDONLY);
    while (read(f, piece, sizeof piece) > 0) {}
    lseek(f, 0, SEEK_SET);
    for (ssize_t n; (n = read(f, piece, sizeof piece)) > 0;)
        if (write(1, piece, n) != n) return 1;
    return 0;
}

static int scan(const char *name) {
    static char piece[65536];
    int f = open(name, O_RDONLY);
    long count = 0;
    char before = '\n';
    for (ssize_t n; (n = read(f, piece, sizeof piece)) > 0; before = piece[n - 1])
        for (char *p = piece; (p = memchr(p, '=', piece + n - p)); p++)
            count += (p == piece ? before : p[-1]) == '\n';
    printf("%ld headers\n", count);
    return 0;
}

static int reread(const char *name, int kinds, int look) {
    static const char *tags[] = {"proc:", "proc_heap:", "binary:"};
    static char piece[65536];
    static struct { long at; int kind; } sections[4000000];
    int f = open(name, O_RDONLY);
    long count = 0, found = 0, offset = 0;
    char before = '\n';
    for (ssize_t n; (n = read(f, piece, sizeof piece)) > 0; before = piece[n - 1], offset += n)
        for (char *p = piece; (p = memchr(p, '=', piece + n - p)); p++)
            if ((p == piece ? before : p[-1]) == '\n' && count < 4000000 - 1) {
                int kind = 0;
                while (kind < 3 && (piece + n - p < 12 || memcmp(p + 1, tags[kind], strlen(tags[kind])))) kind++;
                sections[count].at = offset + (p - piece);
                sections[count++].kind = kind;
            }
    sections[count].at = offset;
    for (int kind = 0; kind < kinds; kind++)
        for (long i = 0; i < count; i++) {
            if (sections[i].kind != kind) continue;
            long upto = kind == 2 ? sections[i].at + 17 : sections[i + 1].at;
            for (long at = sections[i].at; at < upto;) {
                ssize_t n = pread(f, piece, upto - at < 65536 ? upto - at : 65536, at);
                if (n <= 0) return 1;
                at += n;
                if (kind != 1 || !look) continue;
                for (char *p = piece; (p = memmem(p, piece + n - p, ":Y", 2)); p++) found++;
            }
        }
    printf("%ld sections, %ld references\n", count, found);
    return 0;
}

// The addresses of the heap lines of a file, and nothing else.
static int addresses(const char *name) {
    static char piece[65536];
    int f = open(name, O_RDONLY);
    unsigned long address = 0, sum = 0;
    long count = 0;
    int leads = 1;
    for (ssize_t n; (n = read(f, piece, sizeof piece)) > 0;)
        for (char *p = piece, *end = piece + n; p < end;) {
            if (!leads) {
                char *lf = memchr(p, '\n', end - p);
                if (!lf) break;
                p = lf + 1, leads = 1, address = 0;
                continue;
            }
            char c = *p++;
            if (c >= '0' && c <= '9') address = address << 4 | (c - '0');
            else if (c >= 'A' && c <= 'F') address = address << 4 | (c - 'A' + 10);
            else {
                if (c == ':') count++, sum += address;
                leads = c == '\n', address = 0;
            }
        }
    printf("%ld lines, %lX\n", count, sum);
    return 0;
}

static int measure(const char *out, char **command) {
    struct timespec from, upto;
    clock_gettime(CLOCK_MONOTONIC, &from);
    pid_t child = fork();
    if (child == 0) {
        dup2(open(out, O_WRONLY | O_CREAT | O_TRUNC, 0600), 1);
        execvp(command[0], command);
        _exit(127);
    }
    int status;
    struct rusage use;
    wait4(child, &status, 0, &use);
    clock_gettime(CLOCK_MONOTONIC, &upto);
    printf("%.3f %ld\n", (upto.tv_sec - from.tv_sec) + (upto.tv_nsec - from.tv_nsec) / 1e9, use.ru_maxrss);
    // edump ends with 3 where an audit has a finding.
    return !WIFEXITED(status) || (WEXITSTATUS(status) != 0 && WEXITSTATUS(status) != 3);
}

int main(int count, char **words) {
    if (count == 5 && !strcmp(words[1], "write")) return write_dump(words[2], atol(words[3]), atol(words[4]));
    if (count == 5 && !strcmp(words[1], "procs")) return write_processes(words[2], atol(words[3]), atol(words[4]));
    if (count == 4 && !strcmp(words[1], "stacks")) return write_stacks(words[2], atol(words[3]));
    if (count == 4 && !strcmp(words[1], "waits")) return write_waits(words[2], atol(words[3]));
    if (count == 5 && !strcmp(words[1], "list")) return write_list(words[2], atol(words[3]), atoi(words[4]));
    if (count == 5 && !strcmp(words[1], "messages")) return write_messages(words[2], atol(words[3]), atol(words[4]));
    if (count == 4 && !strcmp(words[1], "tuples")) return write_tuples(words[2], atol(words[3]));
    if (count == 4 && !strcmp(words[1], "graph")) return write_graph(words[2], atol(words[3]));
    if (count == 5 && !strcmp(words[1], "binaries")) return write_binaries(words[2], atol(words[3]), atol(words[4]));
    if (count == 6 && !strcmp(words[1], "holders")) return write_holders(words[2], atol(words[3]), atol(words[4]), atol(words[5]));
    if (count == 4 && !strcmp(words[1], "repeated")) return write_repeated(words[2], atol(words[3]));
    if (count == 5 && !strcmp(words[1], "links")) return write_links(words[2], atol(words[3]), atol(words[4]));
    if (count == 4 && !strcmp(words[1], "lonely")) return write_lonely(words[2], atol(words[3]));
    if (count == 4 && !strcmp(words[1], "star")) return write_star(words[2], atol(words[3]));
    if (count == 4 && !strcmp(words[1], "external")) return write_external(words[2], atol(words[3]));
    if (count == 5 && !strcmp(words[1], "payloads")) return write_payloads(words[2], atol(words[3]), atol(words[4]));
    if (count == 3 && !strcmp(words[1], "copy")) return copy(words[2]);
    if (count == 3 && !strcmp(words[1], "scan")) return scan(words[2]);
    if (count == 3 && !strcmp(words[1], "addresses")) return addresses(words[2]);
    if (count == 5 && !strcmp(words[1], "reread")) return reread(words[2], atoi(words[3]), atoi(words[4]));
    if (count > 3 && !strcmp(words[1], "measure")) return measure(words[2], words + 3);
    return 2;
}
