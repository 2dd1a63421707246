// The memory by which references go from trace-plugin.c, in the traced process, to trace-run.c.
//
// A thread of the program takes an empty block, fills it, and hands it over: when it is full and at
// each system call. trace-run writes the blocks in the order in which they were handed over, and
// empties them. What lies in a block outlives the process, so a program that is killed loses
// nothing. At a system call a thread keeps no block: those that sleep don't starve the others.
#include <semaphore.h>
#include <stdatomic.h>
#include <stdbool.h>
#include <stdint.h>

// LAYOUT changes with this file, so that halves compiled from different ones don't meet.
enum { LAYOUT = 6, BLOCKS = 64, REFERENCES = 4096 };

// references of one thread, in their order
struct block {
    _Atomic uint32_t used;
    uint32_t thread;  // its number, from 1 on, in the order in which they begin
    // as in a din line: 0 a read, 1 a write, 2 a fetch; others of what befell the heap, where the
    // address is how many words of this follow
    char label[REFERENCES];
    uint64_t address[REFERENCES];
    uint8_t bytes[REFERENCES];  // that a data reference has, where threads are told apart
};

struct memory {
    uint32_t layout;
    char kind;                    // which references: u all, d data, i fetches
    bool threads;                 // are told apart, and how many bytes a reference has
    _Atomic bool loaded;          // the plugin is there
    _Atomic bool ran;             // the program's code was seen
    _Atomic bool began;           // so did the trace
    _Atomic bool jumped;          // into the traced function: it is not known where that returns
    _Atomic bool exited;          // the program ended by itself, so it is not another program since
    _Atomic bool forked;          // it has had children
    _Atomic char heap;            // y if trace-heap.so is there, n if malloc is the program's own
    _Atomic int map_fault;        // why the map lacks something, as in errno, or 0
    sem_t full, empty;            // how many blocks wait to be written, and to be filled
    _Atomic uint64_t empty_ones;  // a bit for each block
    _Atomic uint32_t handed_over; // so many were, and block N of them is order[N % BLOCKS]
    uint8_t order[BLOCKS];
    struct block blocks[BLOCKS];
};
