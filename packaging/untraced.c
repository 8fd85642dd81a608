/*
 * Linked into the programs alone, and never into libpikhsen: before main a process says that it makes no core file, and
 * that no other of the same user may trace it or read its memory. That reaches all threads, and no other process.
 */
int prctl(int option, ...);

enum { PR_SET_DUMPABLE = 4 };

__attribute__((constructor)) static void begin(void) {
    prctl(PR_SET_DUMPABLE, 0ul, 0ul, 0ul, 0ul);
}
