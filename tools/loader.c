/* Loads an object of the compiler into a process of its machine, calls one of its functions, and tells how the call ends.

       loader OBJECT ADDRESS STACK RESULTS [WORD..]

   OBJECT is the file, ADDRESS the function's, STACK the bytes of stack that the call is granted, RESULTS the count of
   result words, and WORDs are the arguments' words. It writes "returned" and the results' words, or "trapped" and a
   number, and then "data" and the bytes of the data segment in hexadecimal. All numbers are unsigned and decimal. It
   stands alone, without a C library, so a cross compiler is all that it needs. tools/qemu.py builds and runs it. */
typedef unsigned char byte;
typedef unsigned int u32;
typedef unsigned long word;

#define STACK_END 0x20000000ul
#define ROOM 0x10000ul
#define PAGE 0xffful

#if __riscv
enum { OPENAT = 56, READ = 63, PREAD = 67, WRITE = 64, EXIT = 93, SIGACTION = 134, MMAP = 222 };
enum { IN_REGISTERS = 8, MCONTEXT = 176 };
typedef struct { byte ident[16]; unsigned short type, machine; u32 version; word entry, phoff, shoff; u32 flags;
    unsigned short ehsize, phentsize, phnum; } header;
typedef struct { u32 type, flags; word offset, vaddr, paddr, filesz, memsz, align; } segment;
#else
enum { OPENAT = 322, READ = 3, PREAD = 180, WRITE = 4, EXIT = 1, SIGACTION = 174, MMAP = 192 };
enum { IN_REGISTERS = 0, MCONTEXT = 32 };
typedef struct { byte ident[16]; unsigned short type, machine; u32 version; word entry, phoff, shoff; u32 flags;
    unsigned short ehsize, phentsize, phnum; } header;
typedef struct { u32 type; word offset, vaddr, paddr, filesz, memsz; u32 flags, align; } segment;
#endif

/* What the entry reads and writes: its assembly knows the order. */
struct call { word function, stack, bound, registers[8]; } state;
word saved[16];
static byte *data;
static word data_size;

#if __riscv
static long system_call(long n, long a, long b, long c, long d, long e, long f)
{
    register long a0 __asm__("a0") = a;
    register long a1 __asm__("a1") = b;
    register long a2 __asm__("a2") = c;
    register long a3 __asm__("a3") = d;
    register long a4 __asm__("a4") = e;
    register long a5 __asm__("a5") = f;
    register long a7 __asm__("a7") = n;
    __asm__ volatile("ecall" : "+r"(a0) : "r"(a1), "r"(a2), "r"(a3), "r"(a4), "r"(a5), "r"(a7) : "memory");
    return a0;
}

void enter(void);
__asm__(
    ".globl enter\nenter:\n"
    "  la t0, saved\n"
    "  sd ra, 0(t0)\n  sd sp, 8(t0)\n  sd s0, 16(t0)\n  sd s1, 24(t0)\n  sd s2, 32(t0)\n  sd s3, 40(t0)\n"
    "  sd s4, 48(t0)\n  sd s5, 56(t0)\n  sd s6, 64(t0)\n  sd s7, 72(t0)\n  sd s8, 80(t0)\n  sd s9, 88(t0)\n"
    "  sd s10, 96(t0)\n  sd s11, 104(t0)\n  sd gp, 112(t0)\n  sd tp, 120(t0)\n"
    "  la t6, state\n"
    "  ld t5, 0(t6)\n  ld sp, 8(t6)\n  ld s11, 16(t6)\n"
    "  ld a0, 24(t6)\n  ld a1, 32(t6)\n  ld a2, 40(t6)\n  ld a3, 48(t6)\n"
    "  ld a4, 56(t6)\n  ld a5, 64(t6)\n  ld a6, 72(t6)\n  ld a7, 80(t6)\n"
    "  jalr ra, t5\n"
    "  la t6, state\n"
    "  sd a0, 24(t6)\n  sd a1, 32(t6)\n  sd a2, 40(t6)\n  sd a3, 48(t6)\n"
    "  sd a4, 56(t6)\n  sd a5, 64(t6)\n  sd a6, 72(t6)\n  sd a7, 80(t6)\n"
    "  la t0, saved\n"
    "  ld ra, 0(t0)\n  ld sp, 8(t0)\n  ld s0, 16(t0)\n  ld s1, 24(t0)\n  ld s2, 32(t0)\n  ld s3, 40(t0)\n"
    "  ld s4, 48(t0)\n  ld s5, 56(t0)\n  ld s6, 64(t0)\n  ld s7, 72(t0)\n  ld s8, 80(t0)\n  ld s9, 88(t0)\n"
    "  ld s10, 96(t0)\n  ld s11, 104(t0)\n  ld gp, 112(t0)\n  ld tp, 120(t0)\n"
    "  ret\n"
    ".globl _start\n_start:\n  mv a0, sp\n  call main\n");

static word trap_number(const word *registers) { return registers[31]; }
#else
static long system_call(long n, long a, long b, long c, long d, long e, long f)
{
    register long r0 __asm__("r0") = a;
    register long r1 __asm__("r1") = b;
    register long r2 __asm__("r2") = c;
    register long r3 __asm__("r3") = d;
    register long r4 __asm__("r4") = e;
    register long r5 __asm__("r5") = f;
    register long r7 __asm__("r7") = n;
    __asm__ volatile("svc 0" : "+r"(r0) : "r"(r1), "r"(r2), "r"(r3), "r"(r4), "r"(r5), "r"(r7) : "memory");
    return r0;
}

void enter(void);
__asm__(
    ".arm\n.globl enter\nenter:\n"
    "  push {r4-r11, lr}\n"
    "  ldr r0, =saved\n  str sp, [r0]\n"
    "  ldr r0, =state\n  ldr r12, [r0]\n  ldr sp, [r0, #4]\n  ldr r10, [r0, #8]\n"
    "  blx r12\n"
    "  ldr r0, =saved\n  ldr sp, [r0]\n"
    "  pop {r4-r11, lr}\n"
    "  bx lr\n"
    "  .ltorg\n"
    ".globl _start\n_start:\n  mov r0, sp\n  bl main\n");

static word trap_number(const word *registers)
{
    u32 udf = *(u32 *)registers[15];
    return (udf >> 4 & 0xfff0) | (udf & 15);
}
#endif

static void put(const char *text)
{
    word n = 0;
    while (text[n]) n++;
    system_call(WRITE, 1, (long)text, n, 0, 0, 0);
}

static void put_number(word n)
{
    char digits[24];
    int at = 23;
    digits[at] = 0;
    do { digits[--at] = '0' + n % 10; n /= 10; } while (n);
    put(digits + at);
}

static void put_data(void)
{
    char pair[3] = "00";
    put(" data ");
    for (word n = 0; n < data_size; n++) {
        pair[0] = "0123456789abcdef"[data[n] >> 4];
        pair[1] = "0123456789abcdef"[data[n] & 15];
        put(pair);
    }
    put("\n");
}

static void leave(int status) { for (;;) system_call(EXIT, status, 0, 0, 0, 0, 0); }

static void fail(const char *text) { put(text); leave(2); }

static void on_signal(int number, void *info, byte *context)
{
    (void)info;
    if (number == 11 || number == 7) {
        put("fault");
    } else {
        put("trapped ");
        put_number(trap_number((const word *)(context + MCONTEXT)));
    }
    put_data();
    leave(0);
}

static word number_of(const char *text)
{
    word n = 0;
    for (; *text; text++) n = n * 10 + (*text - '0');
    return n;
}

static void map(word from, word to)
{
    from &= ~PAGE;
    to = (to + PAGE) & ~PAGE;
    long at = system_call(MMAP, from, to - from, 7, 0x32, -1, 0);
    if (at != (long)from) fail("no memory at an address of the object\n");
}

static void read_at(int file, void *to, word count, word offset)
{
    /* The 32-bit call takes its offset as a pair of words, in even registers. */
#if __riscv
    long got = system_call(PREAD, file, (long)to, count, offset, 0, 0);
#else
    long got = system_call(PREAD, file, (long)to, count, 0, offset, 0);
#endif
    if (got != (long)count) fail("the object is too short\n");
}

static void load(const char *path)
{
    header h;
    segment s;
    int file = system_call(OPENAT, -100, (long)path, 0, 0, 0, 0);
    if (file < 0) fail("the object does not open\n");
    read_at(file, &h, sizeof h, 0);
    for (int n = 0; n < h.phnum; n++) {
        read_at(file, &s, sizeof s, h.phoff + n * h.phentsize);
        if (s.memsz) {
            map(s.vaddr, s.vaddr + s.memsz);
            read_at(file, (void *)s.vaddr, s.filesz, s.offset);
        }
        if (n == 2) {
            data = (byte *)s.vaddr;
            data_size = s.memsz;
        }
    }
}

static void catch_signals(void)
{
    word action[8] = {(word)on_signal, 4, 0, 0, 0, 0, 0, 0};
    int numbers[4] = {4, 5, 7, 11};
    for (int n = 0; n < 4; n++) system_call(SIGACTION, numbers[n], (long)action, 0, 8, 0, 0);
}

void main(word *start)
{
    char **words = (char **)(start + 1);
    int count = (int)start[0] - 5;
    if (count < 0) fail("loader OBJECT ADDRESS STACK RESULTS [WORD..]\n");
    word stack = number_of(words[3]);
    word results = number_of(words[4]);
    word *behind = (word *)STACK_END;
    load(words[1]);
    map(STACK_END - stack - ROOM, STACK_END + ROOM);
    state.function = number_of(words[2]);
    state.stack = STACK_END;
    state.bound = STACK_END - stack;
    for (int n = 0; n < count; n++) {
        if (n < IN_REGISTERS) state.registers[n] = number_of(words[5 + n]);
        else behind[n] = number_of(words[5 + n]);
    }
    catch_signals();
    enter();
    put("returned");
    for (word n = 0; n < results; n++) {
        put(" ");
        put_number(n < IN_REGISTERS ? state.registers[n] : behind[count + n]);
    }
    put_data();
    leave(0);
}
