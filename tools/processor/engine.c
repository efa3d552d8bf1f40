/* Runs one encoding on this processor, inside this process, and says what the processor did.
 *
 * Two pages lie far from every other mapping: one for code, and after it one that can't be fetched. The bytes of an encoding are put so that
 * the last one is the last byte of the first page. The processor starts at the first byte by a made signal frame (rt_sigreturn) with known
 * registers and with TF, so it runs one instruction at most. A handler notes the trap and returns to the caller of `run`. A fault of fetching
 * at the second page says that the processor wants more bytes. */
#define _GNU_SOURCE
#include "processor.h"
#include <err.h>
#include <linux/audit.h>
#include <linux/filter.h>
#include <linux/seccomp.h>
#include <signal.h>
#include <stddef.h>
#include <string.h>
#include <sys/mman.h>
#include <sys/prctl.h>
#include <sys/syscall.h>
#include <sys/ucontext.h>
#include <unistd.h>

enum { STATE_MAX = 16384, STATE_WORDS = 464 };      /* the most bytes of XSAVE's area, and where the kernel says how many there are */

struct registers before, after;
bool has_vectors, is_x87_full;
uint64_t runs, fs_base, gs_base;
uint64_t left_rsp;                                  /* where `enter` left the stack */

static uint8_t *code_page;                          /* the code page once more, writable */
static struct { uint64_t returns; ucontext_t context; siginfo_t info; } frame __attribute__((aligned(64)));
static uint8_t state[STATE_MAX] __attribute__((aligned(64))), clean_state[STATE_MAX] __attribute__((aligned(64)));
static size_t state_size;
static uint8_t handler_stack[262144] __attribute__((aligned(64)));
static struct outcome last;
static volatile bool is_running;

static const int saved_at[16] = {REG_RAX, REG_RCX, REG_RDX, REG_RBX, REG_RSP, REG_RBP, REG_RSI, REG_RDI, REG_R8, REG_R9, REG_R10, REG_R11, REG_R12, REG_R13, REG_R14, REG_R15};

/* `enter` begins at the made frame, and `leave`, which the handler calls, returns from it. */
void enter(void *frame_at);
void leave(void) __attribute__((noreturn));
__asm__(".globl enter\nenter:\n"
        "push %rbx\npush %rbp\npush %r12\npush %r13\npush %r14\npush %r15\nrdfsbase %rax\npush %rax\nmov %rsp, left_rsp(%rip)\n"
        "mov fs_base(%rip), %rax\nwrfsbase %rax\nmov gs_base(%rip), %rax\nwrgsbase %rax\nmov %rdi, %rsp\nmov $15, %eax\nsyscall\nud2\n"
        ".globl leave\nleave:\nmov left_rsp(%rip), %rsp\ncld\npop %rax\nwrfsbase %rax\n"
        "pop %r15\npop %r14\npop %r13\npop %r12\npop %rbp\npop %rbx\nret\n");

/* The first trap is that of start_engine, whose frame is kept to make others from. */
static void keep_frame(ucontext_t *context)
{
    struct _fpx_sw_bytes *words = (void *)((uint8_t *)context->uc_mcontext.fpregs + STATE_WORDS);
    frame.context = *context;
    state_size = words->magic1 == FP_XSTATE_MAGIC1 && words->extended_size <= STATE_MAX ? words->extended_size : 0;
    memcpy(clean_state, context->uc_mcontext.fpregs, state_size);
    context->uc_mcontext.gregs[REG_RIP] += 2;       /* the place after UD2 */
}

static void handle(int number, siginfo_t *info, void *place)
{
    ucontext_t *context = place;
    const greg_t *saved = context->uc_mcontext.gregs;
    (void)number;
    if (state_size == 0) { keep_frame(context); return; }
    if (!is_running) _exit(2);                      /* a fault of this program itself */
    is_running = false;
    last = (struct outcome){(int)saved[REG_TRAPNO], (int)saved[REG_ERR], (uint64_t)saved[REG_RIP], saved[REG_TRAPNO] == TRAP_PF ? (uint64_t)info->si_addr : 0};
    for (int k = 0; k < 16; k++) after.gpr[k] = (uint64_t)saved[saved_at[k]];
    after.flags = (uint64_t)saved[REG_EFL];
    if (has_vectors) {
        memcpy(after.mm, (uint8_t *)context->uc_mcontext.fpregs + 32, sizeof after.mm);
        memcpy(after.xmm, (uint8_t *)context->uc_mcontext.fpregs + 160, sizeof after.xmm);
    }
    leave();
}

/* Ends the process at any call of the kernel but those that it needs. */
static void install_filter(void)
{
    struct sock_filter code[] = {
        BPF_STMT(BPF_LD | BPF_W | BPF_ABS, offsetof(struct seccomp_data, arch)),
        BPF_JUMP(BPF_JMP | BPF_JEQ | BPF_K, AUDIT_ARCH_X86_64, 0, 5),
        BPF_STMT(BPF_LD | BPF_W | BPF_ABS, offsetof(struct seccomp_data, nr)),
        BPF_JUMP(BPF_JMP | BPF_JEQ | BPF_K, SYS_rt_sigreturn, 4, 0),
        BPF_JUMP(BPF_JMP | BPF_JEQ | BPF_K, SYS_write, 3, 0),
        BPF_JUMP(BPF_JMP | BPF_JEQ | BPF_K, SYS_read, 2, 0),
        BPF_JUMP(BPF_JMP | BPF_JEQ | BPF_K, SYS_exit_group, 1, 0),
        BPF_STMT(BPF_RET | BPF_K, SECCOMP_RET_KILL_PROCESS),
        BPF_STMT(BPF_RET | BPF_K, SECCOMP_RET_ALLOW),
    };
    struct sock_fprog program = {sizeof code / sizeof *code, code};
    if (prctl(PR_SET_NO_NEW_PRIVS, 1, 0, 0, 0) || prctl(PR_SET_SECCOMP, SECCOMP_MODE_FILTER, &program)) err(2, "seccomp");
}

static uint8_t *map_at(uint64_t at, int protection, int flags, int file)
{
    uint8_t *page = mmap((void *)at, 4096, protection, flags | (at ? MAP_FIXED_NOREPLACE : 0), file, 0);
    if (page == MAP_FAILED) err(2, "mmap");
    return page;
}

void start_engine(bool with_data)
{
    static const int signals[] = {SIGSEGV, SIGILL, SIGTRAP, SIGFPE, SIGBUS};
    struct sigaction action = {.sa_sigaction = handle, .sa_flags = SA_SIGINFO | SA_ONSTACK | SA_NODEFER};
    stack_t stack = {.ss_sp = handler_stack, .ss_size = sizeof handler_stack};
    int file = memfd_create("code", 0);
    if (file < 0 || ftruncate(file, 4096)) err(2, "memfd");
    map_at(CODE_END - 4096, PROT_READ | PROT_EXEC, MAP_SHARED, file);
    map_at(CODE_END, PROT_NONE, MAP_PRIVATE | MAP_ANONYMOUS, -1);
    code_page = map_at(0, PROT_READ | PROT_WRITE, MAP_SHARED, file);
    if (with_data) map_at(DATA, PROT_READ | PROT_WRITE, MAP_PRIVATE | MAP_ANONYMOUS, -1);
    memset(code_page, 0xcc, 4096);
    if (sigaltstack(&stack, NULL)) err(2, "sigaltstack");
    for (unsigned k = 0; k < sizeof signals / sizeof *signals; k++)
        if (sigaction(signals[k], &action, NULL)) err(2, "sigaction");
    __asm__ volatile("ud2" ::: "memory");
    if (state_size == 0) errx(2, "there is no state of XSAVE in the frame");
    install_filter();
}

bool wants_more(struct outcome of, int count)
{
    return of.trap == TRAP_PF && (of.err & 16) && of.cr2 == CODE_END && of.rip == CODE_END - (uint64_t)count;
}

struct outcome run(const uint8_t *bytes, int count)
{
    greg_t *saved = frame.context.uc_mcontext.gregs;
    memcpy(code_page + 4096 - count, bytes, (size_t)count);
    for (int k = 0; k < 16; k++) saved[saved_at[k]] = (greg_t)before.gpr[k];
    saved[REG_EFL] = (greg_t)(before.flags | 0x302);        /* TF and IF */
    saved[REG_RIP] = (greg_t)(CODE_END - (uint64_t)count);
    memcpy(state, clean_state, state_size);
    if (has_vectors) {
        memcpy(state + 32, before.mm, sizeof before.mm);
        memcpy(state + 160, before.xmm, sizeof before.xmm);
        state[512] |= 3;                                    /* x87 and SSE are in use */
        if (is_x87_full) state[4] = 0xff;                   /* the tags; the top of the stack is register 0 */
    }
    frame.context.uc_mcontext.fpregs = (void *)state;
    sigemptyset(&frame.context.uc_sigmask);
    is_running = true;
    enter((uint8_t *)&frame + 8);
    runs++;
    return last;
}

bool has_twin(const uint8_t *bytes)
{
    int end = 0;
    while (end < 15 && is_prefix(bytes[end])) end++;
    return end > 1 && memchr(bytes + 1, bytes[0], (size_t)end - 1) != NULL;
}

int least_bytes(const uint8_t *bytes, int from, struct outcome *of)
{
    while (from <= 15 && wants_more(*of = run(bytes, from), from)) from++;
    /* Some processors raise #GP at 15 bytes and don't fetch a 16th: of these the 14 without a prefix that comes again say whether they end. */
    bool is_open = from == 15 && of->trap == TRAP_GP && has_twin(bytes) && wants_more(run(bytes + 1, 14), 14);
    return is_open ? 16 : from;
}

const char *trap_name(int trap)
{
    static const char *const names[20] = {"#DE", "ran", [6] = "#UD", [12] = "#SS", [13] = "#GP", [14] = "#PF", [16] = "#MF", [17] = "#AC", [19] = "#XM"};
    return trap >= 0 && trap < 20 && names[trap] ? names[trap] : "another trap";
}
