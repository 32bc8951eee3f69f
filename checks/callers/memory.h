/* The C library's heap as the library reaches it, by the linker's --wrap: blocks are counted, and allocations can be made to fail. */
#ifndef MEMORY_H
#define MEMORY_H

/* How many blocks and bytes the library holds, and how often it asked for one. */
extern long blocks, bytes, asked;

/* Which of them fail: the one with this number, or all from it on, counted by `asked`; 0 is none. */
extern long one_fails, all_fail;

#endif
