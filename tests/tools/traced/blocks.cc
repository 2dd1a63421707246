// Structures on the heap, each with a known number of references of the program's own.
#include <cstdlib>
#include <vector>

struct point { volatile long x, y; };
struct node { node *volatile next; volatile long value; };
struct item {
    volatile long value;
    item(long given) : value(given) {}
    item(const item &other) : value(other.value) {}
};

__attribute__((noinline)) static void *xmalloc(size_t size) { return std::malloc(size); }

// 100 of them, 3 references to each
__attribute__((noinline)) static long array() {
    auto *points = static_cast<point *>(xmalloc(100 * sizeof(point)));  // array
    long sum = 0;
    for (int i = 0; i < 100; i++) points[i].x = i, points[i].y = -i;
    for (int i = 0; i < 100; i++) sum += points[i].x;
    return sum;
}

// 50 of them, 4 references to each, and one more as they are freed
__attribute__((noinline)) static long list() {
    node *first = nullptr;
    long sum = 0;
    for (int i = 0; i < 50; i++) {
        node *one = new node;  // list
        one->next = first, one->value = i, first = one;
    }
    for (node *at = first; at; at = at->next) sum += at->value;
    while (first) {
        node *next = first->next;
        delete first;
        first = next;
    }
    return sum;
}

// 100 are put in; 1, 2, 4, .. and 64 are copied, which is a read and a write
__attribute__((noinline)) static void vector() {
    std::vector<item> items;
    for (int i = 0; i < 100; i++) items.push_back(item(i));  // vector
}

// One address three times: 5 references, 7, and none after the last is freed
__attribute__((noinline)) static bool reuse() {
    auto *first = static_cast<volatile char *>(std::malloc(600));  // first
    auto at = reinterpret_cast<size_t>(first);
    for (int i = 0; i < 5; i++) first[500 + i] = 1;
    std::free(const_cast<char *>(first));
    auto *second = static_cast<volatile char *>(std::malloc(590));  // second
    for (int i = 0; i < 7; i++) second[500 + i] = 1;
    bool is_one = at == reinterpret_cast<size_t>(second);
    std::free(const_cast<char *>(second));
    return is_one;
}

// 3 references; to where they are copied 9 more
__attribute__((noinline)) static void resize() {
    auto *longs = static_cast<volatile long *>(std::calloc(3, sizeof(long)));  // small
    void *volatile behind = std::malloc(24);
    for (int i = 0; i < 3; i++) longs[i] = i;
    longs = static_cast<volatile long *>(std::realloc(const_cast<long *>(longs), 3200));  // large
    for (int i = 3; i < 12; i++) longs[i] = i;
    std::free(const_cast<long *>(longs));
    std::free(behind);
}

int main() {
    long sum = array();
    resize();
    sum += list();
    vector();
    bool is_one = reuse();
    return sum != 99 * 50 + 49 * 25 || !is_one;
}
