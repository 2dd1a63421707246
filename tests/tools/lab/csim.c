/* A right simulator as students write it, for the tests of what `grade` says of mistakes:
 * reasons.edits has them, each as lines of this that are replaced. */
#include <getopt.h>
#include <stdio.h>
#include <stdlib.h>
#include <string.h>
#include <time.h>

typedef unsigned long long address_t;
typedef struct { int valid; address_t tag; long used; long uses; } line_t;
typedef struct { line_t *lines; int filled; int flag; } set_t;

static int s, E, b, S;
static int hits, misses, evictions, filled;
static long now;
static char letter;
static set_t *sets;

static void make(void)
{
    S = 1 << s;
    sets = malloc(sizeof(set_t) * S);
    for (int i = 0; i < S; i++) {
        sets[i] = (set_t){malloc(sizeof(line_t) * E), 0, 0};
        for (int j = 0; j < E; j++)
            sets[i].lines[j] = (line_t){0, 0, 0, 0};
    }
}

static int victim(const line_t *lines)
{
    int found = 0;
    for (int i = 1; i < E; i++)
        if (lines[i].used < lines[found].used)
            found = i;
    return found;
}

static void empty(set_t *set)
{
    for (int i = 0; i < E; i++)
        set->lines[i].valid = 0;
    set->filled = 0;
}

static void touch(address_t address)
{
    set_t *set = &sets[address >> b & (S - 1)];
    address_t tag = address >> b >> s;
    now++;
    for (int i = 0; i < E; i++) {
        line_t *line = &set->lines[i];
        if (line->valid && line->tag == tag) {
            line->used = now;
            line->uses++;
            hits++;
            return;
        }
    }
    misses++;
    int place = set->filled;
    if (place == E) {
        place = victim(set->lines);
        evictions++;
    } else {
        set->filled++;
        filled++;
    }
    line_t *line = &set->lines[place];
    line->valid = 1;
    line->tag = tag;
    line->used = now;
    line->uses = 1;
}

static void go(char kind, address_t address, int size)
{
    (void)size;
    letter = kind;
    touch(address);
    if (kind == 'M')
        touch(address);
}

static void run(FILE *file)
{
    char text[100], kind = 0;
    address_t address = 0;
    int size = 0;
    while (fgets(text, sizeof text, file)) {
        if (text[0] == 'I')
            continue;
        if (sscanf(text, " %c %llx,%d", &kind, &address, &size) < 3)
            continue;
        go(kind, address, size);
    }
}

static void print(int hits, int misses, int evictions)
{
    printf("hits:%d misses:%d evictions:%d\n", hits, misses, evictions);
    FILE *results = fopen(".csim_results", "w");
    fprintf(results, "%d %d %d\n", hits, misses, evictions);
    fclose(results);
}

int main(int argc, char **argv)
{
    const char *trace = "";
    for (int option; (option = getopt(argc, argv, "vs:E:b:t:")) != -1;)
        switch (option) {
        case 's': s = atoi(optarg); break;
        case 'E': E = atoi(optarg); break;
        case 'b': b = atoi(optarg); break;
        case 't': trace = optarg; break;
        }
    FILE *file = fopen(trace, "r");
    if (!file)
        exit(1);
    make();
    (void)empty;
    run(file);
    for (int i = 0; i < S; i++)
        free(sets[i].lines);
    free(sets);
    print(hits, misses, evictions);
    return 0;
}
