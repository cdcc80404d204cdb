/* Asks the library as a kernel would: no C library, no red zone, general registers only.
 *
 * All questions are asked twice. The second time the processor traps after each instruction, and the
 * handler, on a stack of its own, does what an interrupt does to a kernel: it overwrites what lies below
 * the stack pointer. It also looks whether the vector registers, a user program's, are as they were. */
#include <signal.h>
#include <stdint.h>
#include <sys/syscall.h>
#include <ucontext.h>

#include "wuohtan.h"

enum { KIB4 = 4096, MIB2 = 1 << 21, BELOW = 64, WORDS = 2560, TABLES = WORDS / 512, BASE = 0x1000, ROOT_57 = 0x5000 };

void trap_on(void);
void trap_off(void);
void signal_return(void);
long system_call(long number, long first, long second, long third, long fourth);

/* As Linux takes it. */
struct action {
    void (*handler)(int, siginfo_t *, void *);
    unsigned long flags;
    void (*restorer)(void);
    unsigned long mask;
};

static uint64_t image[WORDS], handler_stack[8192];
static uint64_t interrupts, changes;
static uint32_t first_seen[16][4];

static void interrupt(int signal, siginfo_t *info, void *context) {
    (void)signal, (void)info;
    mcontext_t *machine = &((ucontext_t *)context)->uc_mcontext;
    volatile uint64_t *stack = (uint64_t *)machine->gregs[REG_RSP];
    for (int i = 1; i <= BELOW; i++)
        stack[-i] = 0xdeadbeefdeadbeef;
    for (int i = 0; i < 16; i++)
        for (int j = 0; j < 4; j++) {
            uint32_t now = machine->fpregs->_xmm[i].element[j];
            if (interrupts == 0)
                first_seen[i][j] = now;
            changes += now != first_seen[i][j];
        }
    interrupts++;
}

static int is(uint8_t status, const uint64_t *out, uint64_t a, uint64_t b, uint64_t c, uint64_t d) {
    return status == WUOHTAN_ANSWERED && out[0] == a && out[1] == b && out[2] == c && out[3] == d;
}

/* Whether the answers on addresses, levels and ranges are right, also at 57 bits. */
static int numbers_right(void) {
    uint64_t out[5];
    int right = 1;
    out[1] = out[2] = out[3] = 0;
    right &= is(wuohtan_virt_addr_page_table_index(48, 0xffff800000000000, 4, out, 5), out, 256, 0, 0, 0);
    right &= is(wuohtan_virt_addr_page_table_index(57, 0xff00000000000000, 5, out, 5), out, 256, 0, 0, 0);
    right &= is(wuohtan_page_table_level_table_address_space_alignment(48, 4, out, 5), out, 1ul << 48, 0, 0, 0);
    right &= is(wuohtan_page_table_level_entry_address_space_alignment(48, 4, out, 5), out, 1ul << 39, 0, 0, 0);
    right &= is(wuohtan_page_table_level_entry_address_space_alignment(57, 5, out, 5), out, 1ul << 48, 0, 0, 0);
    right &= is(wuohtan_page_from_page_table_indices(57, 256, 0, 0, 1, 3, out, 5), out, 0xff00000000203000, 0, 0, 0);
    right &= is(wuohtan_page_range_nth(48, 0x1000, KIB4, 0x5000, KIB4, 2, out, 5), out, 1, 0x3000, 0x4000, 0x5000);
    right &= is(wuohtan_page_range_inclusive_next(48, 0x1000, KIB4, 0x5000, KIB4, out, 5), out, 1, 0x1000, 0x2000, 0x5000);
    right &= is(wuohtan_page_range_nth_back(57, 0, KIB4, 1ul << 48, KIB4, 1, out, 5), out, 1, 0xffffffffe000, 0, 0xffffffffe000);
    right &= is(wuohtan_phys_frame_range_next_back(0, MIB2, 2 * MIB2, MIB2, out, 5), out, 1, MIB2, 0, MIB2);
    right &= is(wuohtan_phys_frame_range_inclusive_nth_back(0x1000, KIB4, 0x5000, KIB4, 1, out, 5), out, 1, 0x4000, 0x1000, 0x3000);
    right &= wuohtan_virt_addr_new(48, 1ul << 47, out, 5) == WUOHTAN_NOT_CANONICAL;
    right &= wuohtan_virt_addr_new(57, 1ul << 56, out, 5) == WUOHTAN_NOT_CANONICAL;
    right &= wuohtan_virt_addr_try_new(56, 0, out, 5) == WUOHTAN_NO_SUCH_CHOICE;
    return right;
}

/* Whether case L of document 01 is right, a 2 MiB page and a 4 KiB page after it as one run: translated, searched
 * for and listed at this width, from its root. */
static int case_l_right(uint64_t width, uint64_t root) {
    uint64_t out[5], answers[10];
    uint8_t empty_tables[TABLES + 1] = {0xff, 0xff, 0xff, 0xff, 0xff, 0xff};
    int right = 1;
    right &= is(wuohtan_translate(width, image, WORDS, BASE, root, 0x200123, out, 5), out, 0, 0x600123, KIB4, 1);
    right &= is(wuohtan_search(width, image, WORDS, BASE, root, 0, out, 5), out, 1, 0, 0x400000, 513) && out[4] == 1;
    right &= wuohtan_list(width, image, WORDS, BASE, root, 0, empty_tables, TABLES, answers, 10, out, 5) == WUOHTAN_ANSWERED;
    right &= out[0] == 2 && out[1] == 1;
    right &= is(WUOHTAN_ANSWERED, answers, 1, 0, 0x400000, 513) && answers[4] == 1 && answers[5] == 0;
    /* None of the tables holds nothing, and the byte behind them was not lent. */
    for (int i = 0; i <= TABLES; i++)
        right &= empty_tables[i] == (i < TABLES ? 0 : 0xff);
    return right;
}

/* Whether all answers are right: of functions that use much of the stack, and of some that store much. */
static int all_right(void) {
    return numbers_right() & case_l_right(48, BASE) & case_l_right(57, ROOT_57);
}

static int say(const char *text) {
    long length = 0;
    while (text[length] != 0)
        length++;
    system_call(SYS_write, 1, (long)text, length, 0);
    return 1;
}

/* What the program ends with. */
int run(void) {
    int failed = 0;
    stack_t stack = {.ss_sp = handler_stack, .ss_size = sizeof handler_stack};
    struct action action = {interrupt, SA_SIGINFO | SA_ONSTACK | 0x04000000 /* restorer */, signal_return, 0};

    image[0] = 0x2003, image[512] = 0x3003, image[1024] = 0x400083, image[1025] = 0x4003, image[1536] = 0x600003;
    image[2048] = BASE | 3; /* at 57 bits the root, above case L's */
    if (!all_right())
        return say("a wrong answer\n");
    if (system_call(SYS_sigaltstack, (long)&stack, 0, 0, 0) != 0 || system_call(SYS_rt_sigaction, SIGTRAP, (long)&action, 0, 8) != 0)
        return say("no handler\n");
    trap_on();
    int right = all_right();
    trap_off();
    if (interrupts < 100)
        failed |= say("no interrupts\n");
    if (!right)
        failed |= say("a wrong answer when interrupted\n");
    if (changes != 0)
        failed |= say("a vector register was changed\n");
    return failed;
}
