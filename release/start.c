// What a program needs in place of two functions of a newer glibc, so that it runs with every one from 2.28 on: it is linked into the
// .tar.gz's.

#include <cpuid.h>

// Until glibc 2.33 each program ran its own constructors, by a function that its start-up code handed to __libc_start_main. From 2.34
// on the library does that, and start-up code of that time, as the kit's and Debian 12's, hands none. The kit's programs keep their
// arguments in a constructor: under an older glibc they would see none. So here is such a function again. A newer glibc calls it in
// place of its own. It leaves out `_init`, which does nothing in a program that is not profiled.

typedef void constructor(int count, char **arguments, char **environment);
typedef int starting(int (*run)(int, char **, char **), int count, char **arguments, constructor *before, void (*after)(void),
                     void (*unload)(void), void *stack);

extern constructor *const __init_array_start[] __attribute__((visibility("hidden")));
extern constructor *const __init_array_end[] __attribute__((visibility("hidden")));

extern starting library_start;
__asm__(".symver library_start, __libc_start_main@GLIBC_2.2.5");

static void construct(int count, char **arguments, char **environment) {
    for (constructor *const *next = __init_array_start; next != __init_array_end; next++) {
        (*next)(count, arguments, environment);
    }
}

// What the start-up code calls: the linker takes this one and not the library's.
__attribute__((visibility("hidden"))) int __libc_start_main(int (*run)(int, char **, char **), int count, char **arguments,
                                                            constructor *before, void (*after)(void), void (*unload)(void),
                                                            void *stack) {
    (void)before;
    return library_start(run, count, arguments, construct, after, unload, stack);
}

// glibc 2.33 came with a function that says what the processor has, by which the kit's programs see at their start whether it is an
// x86-64-v2. Of that alone this one knows: SSE3, SSSE3, CMPXCHG16B, SSE4.1, SSE4.2 and POPCNT of leaf 1, and LAHF of leaf 0x80000001.
// For none of them a processor needs the system's help, as it does for AVX.

struct features {
    unsigned processor[4], active[4];  // of a leaf EAX, EBX, ECX and EDX
};

enum { LEAF_1, LEAF_7, LEAF_80000001, LEAVES };

__attribute__((visibility("hidden"))) const struct features *__x86_get_cpuid_feature_leaf(unsigned place) {
    static struct features known[LEAVES + 1];
    static const unsigned levels[] = {[LEAF_1] = 1, [LEAF_80000001] = 0x80000001}, masks[] = {[LEAF_1] = 0x982201, [LEAF_80000001] = 1};
    if (place != LEAF_1 && place != LEAF_80000001) {
        return &known[LEAVES];
    }
    unsigned *words = known[place].processor;
    if (__get_cpuid(levels[place], &words[0], &words[1], &words[2], &words[3])) {
        known[place].active[2] = words[2] & masks[place];
    }
    return &known[place];
}
