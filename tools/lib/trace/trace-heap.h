// What trace-heap.c, in the traced program, tells trace-plugin.c: by a system call that no kernel
// has, of which QEMU lets the plugin know. It has a kind and up to three numbers.
#include <stdint.h>

enum { HEAP_CALL = 0x63616368, FRAMES = 32 };
enum heap_kind {
    CODE,   // where the library's code begins and ends
    LOCAL,  // the first thread's own data: address, size; whether the program calls the library
    QUIET,  // what follows is the library's own, and in no trace
    CALL,   // the allocator is called: an address of frames, how many, and a block to be freed or 0
    GAVE    // it gave a block, or 0: address, size, whether it is the program's from the call on
};
