// What `edump term` does on a heap of lists and tuples, in plain C, to compare with: the lines of the heap, an arena of their
// elements, a hash of their addresses, a walk that looks for a bad address, and a walk that writes the text.
//
//   term FILE PID ADDR    loads the first heap of the process, and writes the term at the address, which is in hex
//
// Elements are numbers, references and the empty list; a line of any other form counts as no cell. The budget is endless.
#include <stdint.h>
#include <stdio.h>
#include <stdlib.h>
#include <string.h>

enum kind { NIL, NUMBER, CELL, MISSING };

// An element: a number by the place and the length of its digits, a reference by the number of its cell or by its address.
struct slot {
    uint64_t value;
    uint32_t length;
    enum kind kind;
};

struct cell {
    uint64_t address;
    uint32_t first, count;
    char is_list, is_open;
};

// A cell that the walk has entered, and which of its elements comes next.
struct frame {
    uint32_t cell, next;
};

static char *text;
static long size;
static struct slot *slots;
static long slot_count, slot_room;
static struct cell *cells;
static long cell_count, cell_room;
static struct frame *stack;
static uint32_t *table;
static uint64_t mask;

static void *grown(void *list, long count, long *room, long each) {
    if (count < *room) return list;
    *room = *room ? 2 * *room : 1024;
    list = realloc(list, *room * each);
    if (!list) exit(6);
    return list;
}

static char *read_hex(char *at, uint64_t *value) {
    char *from = at;
    *value = 0;
    for (;; at++) {
        unsigned digit = *at - '0';
        if (digit > 9) {
            digit = (*at | 32) - 'a' + 10;
            if (digit < 10 || digit > 15) break;
        }
        *value = *value << 4 | digit;
    }
    return at - from > 0 && at - from <= 16 ? at : NULL;
}

static char *read_element(char *at) {
    slots = grown(slots, slot_count, &slot_room, sizeof *slots);
    struct slot *slot = &slots[slot_count];
    if (*at == 'N') {
        slot->kind = NIL;
        at++;
    } else if (*at == 'I') {
        char *digits = ++at;
        if (*at == '-') at++;
        while ((unsigned)(*at - '0') < 10) at++;
        slot->kind = NUMBER;
        slot->value = digits - text;
        slot->length = at - digits;
        if (at == digits) return NULL;
    } else if (*at == 'H') {
        slot->kind = MISSING;
        at = read_hex(at + 1, &slot->value);
    } else {
        return NULL;
    }
    slot_count++;
    return at;
}

// Reads a line that begins here; a line that is no list and no tuple leaves no cell.
static void read_line(char *at) {
    uint64_t address, count = 2;
    long first = slot_count;
    if (!(at = read_hex(at, &address)) || *at != ':') return;
    char form = at[1];
    at += 2;
    if (form == 't') {
        for (count = 0; (unsigned)(*at - '0') < 10; at++) count = count * 10 + (*at - '0');
        if (*at++ != ':') return;
    } else if (form != 'l') {
        return;
    }
    for (uint64_t i = 0; i < count; i++) {
        if (i && *at++ != (form == 'l' ? '|' : ',')) at = NULL;
        if (!at || !(at = read_element(at))) {
            slot_count = first;
            return;
        }
    }
    cells = grown(cells, cell_count, &cell_room, sizeof *cells);
    cells[cell_count++] = (struct cell){address, first, count, form == 'l', 0};
}

static uint64_t place_of(uint64_t address) {
    uint64_t place = (address * 0x9E3779B97F4A7C15u) >> 20 & mask;
    while (table[place] && cells[table[place] - 1].address != address) place = (place + 1) & mask;
    return place;
}

static void resolve(void) {
    for (mask = 1; (long)mask < 2 * cell_count; mask *= 2) {}
    table = calloc(mask, sizeof *table);
    if (!table) exit(6);
    mask--;
    for (long i = 0; i < cell_count; i++) {
        uint64_t place = place_of(cells[i].address);
        if (!table[place]) table[place] = i + 1;
    }
    for (long i = 0; i < slot_count; i++) {
        if (slots[i].kind != MISSING) continue;
        uint32_t found = table[place_of(slots[i].value)];
        if (found) slots[i] = (struct slot){found - 1, 0, CELL};
    }
}

// Whether no address below a cell is missing or the cell's own ancestor.
static int is_clean(uint32_t root) {
    long depth = 1;
    stack[0] = (struct frame){root, 0};
    cells[root].is_open = 1;
    while (depth) {
        struct frame *top = &stack[depth - 1];
        struct cell *cell = &cells[top->cell];
        if (top->next == cell->count) {
            cell->is_open = 0;
            depth--;
            continue;
        }
        struct slot *slot = &slots[cell->first + top->next++];
        if (slot->kind == MISSING || (slot->kind == CELL && cells[slot->value].is_open)) return 0;
        if (slot->kind != CELL) continue;
        cells[slot->value].is_open = 1;
        stack[depth++] = (struct frame){slot->value, 0};
    }
    return 1;
}

static char out[65536];
static long out_count;

static void put(const char *bytes, long count) {
    if (out_count + count > (long)sizeof out) {
        fwrite(out, 1, out_count, stdout);
        out_count = 0;
    }
    if (count > (long)sizeof out) {
        fwrite(bytes, 1, count, stdout);
        return;
    }
    memcpy(out + out_count, bytes, count);
    out_count += count;
}

static void print(uint32_t root) {
    long depth = 1;
    stack[0] = (struct frame){root, 0};
    put(cells[root].is_list ? "[" : "{", 1);
    while (depth) {
        struct frame *top = &stack[depth - 1];
        struct cell *cell = &cells[top->cell];
        if (top->next == cell->count) {
            put(cell->is_list ? "]" : "}", 1);
            depth--;
            continue;
        }
        struct slot *slot = &slots[cell->first + top->next++];
        int is_tail = cell->is_list && top->next == 2;
        if (is_tail && slot->kind == NIL) continue;
        if (is_tail && slot->kind == CELL && cells[slot->value].is_list) {
            put(",", 1);
            *top = (struct frame){slot->value, 0};
            continue;
        }
        if (top->next > 1) put(is_tail ? "|" : ",", 1);
        if (slot->kind == NIL) put("[]", 2);
        if (slot->kind == NUMBER) put(text + slot->value, slot->length);
        if (slot->kind == CELL) {
            put(cells[slot->value].is_list ? "[" : "{", 1);
            stack[depth++] = (struct frame){slot->value, 0};
        }
    }
    put("\n", 1);
    fwrite(out, 1, out_count, stdout);
}

int main(int count, char **words) {
    uint64_t address;
    char header[300];
    FILE *f = count == 4 ? fopen(words[1], "r") : NULL;
    if (!f || fseek(f, 0, SEEK_END) || !read_hex(words[3], &address)) return 2;
    size = ftell(f);
    rewind(f);
    text = malloc(size + 1);
    if (!text || (long)fread(text, 1, size, f) != size) return 5;
    text[size] = 0;
    snprintf(header, sizeof header, "\n=proc_heap:%s\n", words[2]);
    char *line = strstr(text, header);
    if (!line) return 2;
    for (line += strlen(header); *line && *line != '='; line++) {
        read_line(line);
        line = memchr(line, '\n', text + size - line);
        if (!line) break;
    }
    stack = malloc((cell_count + 1) * sizeof *stack);
    if (!stack) return 6;
    resolve();
    uint32_t found = table[place_of(address)];
    if (!found || !is_clean(found - 1)) return 3;
    print(found - 1);
    return 0;
}
