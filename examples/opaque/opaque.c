/* Branches whose outcome the instructions before them fix, and some that look
   so and are open. A compiler would remove them, so they are written in
   assembly; compile with -O0. expected.txt has the verdict on each, worked out
   by hand, and the reason where it is not plain.

     cc -O0 -o opaque examples/opaque/opaque.c
     pomthija list opaque

   The program runs every branch, with several inputs. It can also be compiled as
   32-bit code (-m32); there jecxz takes the place of jrcxz, and jcxz that of jecxz. */

/* The widest registers and the suffix of instructions on them; a count whose low half,
   but not the whole, is 0; the jumps on the whole and on the low half; the own address. */
#ifdef __x86_64__
#define R "%%r"
#define W "q"
#define HIGH "movabsq $0x100000000, %%rcx"
#define IF_ZERO "jrcxz"
#define IF_LOW_ZERO "jecxz"
#define OWN_ADDRESS(place) "leaq " place "(%%rip), %%rax\n\t"
#else
#define R "%%e"
#define W "l"
#define HIGH "movl $0x10000, %%ecx"
#define IF_ZERO "jecxz"
#define IF_LOW_ZERO "jcxz"
#define OWN_ADDRESS(place) "call 4f\n4:\tpopl %%eax\n\taddl $" place "-4b, %%eax\n\t"
#endif

/* A function that executes `before` and `jump`, and tells whether it jumped. */
#define BRANCH(name, before, jump)                                      \
    static int name(int input)                                          \
    {                                                                   \
        int taken = 0;                                                  \
        __asm__ volatile(before "\n\t" jump " 1f\n\tjmp 2f\n"           \
                         "1:\tmovl $1, %0\n2:"                          \
                         : "+m"(taken)                                  \
                         : "r"(input)                                   \
                         : "eax", "ecx", "edx", "cc", "memory");        \
        return taken;                                                   \
    }

/* A register cleared and tested; constants. */
BRANCH(cleared, "xorl %%eax, %%eax\n\ttestl %%eax, %%eax", "je")
BRANCH(cleared_by_sub, "sub" W " " R "dx, " R "dx", "jne")
BRANCH(constant_compared, "movl $1, %%eax\n\tcmpl $6, %%eax", "je")
BRANCH(constant_high_byte, "movl $0x100, %%eax\n\ttestb %%ah, %%ah", "jne")
BRANCH(sign_set, "movl $0x80000000, %%eax\n\ttestl %%eax, %%eax", "js")
BRANCH(parity_even, "movl $3, %%eax\n\ttestl %%eax, %%eax", "jp")
BRANCH(parity_odd, "movl $1, %%eax\n\ttestl %%eax, %%eax", "jp")
BRANCH(signed_less, "mov" W " $-1, " R "ax\n\tcmp" W " $1, " R "ax", "jl")
BRANCH(signed_greater_equal, "mov" W " $-1, " R "ax\n\tcmp" W " $1, " R "ax", "jge")
BRANCH(signed_greater, "movl $3, %%eax\n\tcmpl $2, %%eax", "jg")
BRANCH(signed_less_equal, "movl $3, %%eax\n\tcmpl $2, %%eax", "jle")
BRANCH(unsigned_above, "mov" W " $-1, " R "ax\n\tcmp" W " $1, " R "ax", "ja")
BRANCH(unsigned_below_equal, "mov" W " $-1, " R "ax\n\tcmp" W " $1, " R "ax", "jbe")
BRANCH(overflow, "movl $0x7fffffff, %%eax\n\tincl %%eax", "jo")
BRANCH(overflow_not, "movl $0x80000000, %%eax\n\tdecl %%eax", "jno")

/* A carry set and tested. */
BRANCH(carry_set, "stc", "jb")
BRANCH(carry_cleared, "clc", "jae")
BRANCH(carry_complemented, "stc\n\tcmc", "jb")
BRANCH(carry_kept, "movl %1, %%eax\n\tstc\n\tincl %%eax", "jae")
BRANCH(carry_of_logic, "movl %1, %%eax\n\tandl $1, %%eax", "jb")
BRANCH(carry_of_neg, "movl $5, %%eax\n\tnegl %%eax", "jb")
BRANCH(no_carry_of_neg, "movl $0, %%eax\n\tnegl %%eax", "jb")

/* A register compared with itself. */
BRANCH(same_equal, "movl %1, %%ecx\n\tcmpl %%ecx, %%ecx", "je")
BRANCH(same_less, "movl %1, %%ecx\n\tcmpw %%cx, %%cx", "jl")
BRANCH(same_greater_equal, "movl %1, %%ecx\n\tcmpb %%ch, %%ch", "jge")
BRANCH(same_less_equal, "movl %1, %%ecx\n\tcmpl %%ecx, %%ecx", "jle")
BRANCH(same_greater, "movl %1, %%ecx\n\tcmp" W " " R "cx, " R "cx", "jg")
BRANCH(same_below_equal, "movl %1, %%ecx\n\tcmpl %%ecx, %%ecx", "jbe")
BRANCH(same_above, "movl %1, %%ecx\n\tcmpl %%ecx, %%ecx", "ja")
BRANCH(same_sign, "movl %1, %%ecx\n\tsubl %%ecx, %%ecx", "js")
BRANCH(same_no_sign, "movl %1, %%ecx\n\txorl %%ecx, %%ecx", "jns")
BRANCH(same_parity, "movl %1, %%ecx\n\tcmpl %%ecx, %%ecx", "jp")
BRANCH(same_no_parity, "movl %1, %%ecx\n\tcmpl %%ecx, %%ecx", "jnp")
BRANCH(same_overflow, "movl %1, %%ecx\n\tcmpl %%ecx, %%ecx", "jo")

/* The count register. */
BRANCH(count_zero, "xorl %%ecx, %%ecx", IF_ZERO)
BRANCH(count_one, "movl $1, %%ecx", IF_ZERO)
BRANCH(low_count_zero, HIGH, IF_LOW_ZERO)
BRANCH(low_count_one, "movl $1, %%ecx", IF_LOW_ZERO)
BRANCH(high_count, HIGH, IF_ZERO)

/* Instructions between, which write other registers, or flags. */
BRANCH(register_kept,
       "xorl %%eax, %%eax\n\tleal 1(" R "ax), %%edx\n\timull $3, %1, %%ecx\n\t"
       "cmpxchgl %%ecx, %%edx\n\tmovl $0, %%eax\n\tsete %%dl\n\ttestl %%eax, %%eax",
       "je")
BRANCH(flags_kept, "cmpl %%eax, %%eax\n\tmovl %1, %%ecx\n\tleal (" R "cx," R "cx), %%edx\n\tbswap %%edx", "je")
BRANCH(register_lost, "xorl %%eax, %%eax\n\tmovl %1, %%edx\n\txchgl %%edx, %%eax\n\ttestl %%eax, %%eax", "je")
BRANCH(flags_lost, "stc\n\tmovl %1, %%eax\n\tshrl $1, %%eax", "jb")
BRANCH(product_lost, "xorl %%edx, %%edx\n\tmovl %1, %%eax\n\timull %%eax\n\ttestl %%edx, %%edx", "je")
BRANCH(byte_of_unknown, "movl %1, %%eax\n\tmovb $0, %%al\n\ttestb %%al, %%al", "je")
BRANCH(in_memory, "cmpl $0, %0", "je")

static int called(int input)
{
    return input;
}

/* The call may change the register. */
static int across_a_call(int input)
{
    int taken = 0;
    __asm__ volatile("xorl %%eax, %%eax" ::: "eax");
    called(input);
    __asm__ volatile("testl %%eax, %%eax\n\tje 1f\n\tjmp 2f\n1:\tmovl $1, %0\n2:" : "+m"(taken)::"eax", "cc");
    return taken;
}

/* The test is entered a second time with another value. */
static int loop_head(int input)
{
    int turns = 0;
    __asm__ volatile("xorl %%eax, %%eax\n"
                     "1:\ttestl %%eax, %%eax\n\tjne 2f\n\taddl $1, %0\n\tmovl $1, %%eax\n\tjmp 1b\n2:"
                     : "+m"(turns)::"eax", "cc");
    return turns + input;
}

/* loop counts down to 0; it is no jump that is ever decided. */
static int counted(int input)
{
    int turns = 0;
    __asm__ volatile("movl $3, %%ecx\n1:\taddl $1, %0\n\tloop 1b" : "+m"(turns)::"ecx", "cc");
    return turns + input;
}

/* A jump to an address that is worked out enters behind the xor. */
static int entered(int input)
{
    static void *const places[] = {&&cleared_first, &&tested};
    int taken = 0;
    goto *places[input & 1];
cleared_first:
    __asm__ volatile("xorl %%eax, %%eax" ::: "eax");
tested:
    __asm__ volatile("testl %%eax, %%eax\n\tje 1f\n\tjmp 2f\n1:\tmovl $1, %0\n2:" : "+m"(taken)::"eax", "cc");
    return taken;
}

/* The same, and the address stands nowhere: the xor is 2 bytes long. */
BRANCH(worked_out,
       OWN_ADDRESS("3f") "movl %1, %%ecx\n\tandl $1, %%ecx\n\t"
       "lea" W " (" R "ax," R "cx,2), " R "ax\n\tjmp *" R "ax\n3:\txorl %%eax, %%eax\n\ttestl %%eax, %%eax",
       "je")

/* A jump into an instruction: what is shown as `test eax,0x9001e0c1` is also
   `shl eax,1; nop` from its second byte on. */
BRANCH(inside,
       "movl %1, %%eax\n\tcmpl $2, %%eax\n\tje 3f\n\txorl %%eax, %%eax\n\t"
       ".byte 0xa9\n3:\t.byte 0xc1, 0xe0, 0x01, 0x90\n\ttestl %%eax, %%eax",
       "je")

static int (*const all[])(int) = {
    cleared, cleared_by_sub, constant_compared, constant_high_byte, sign_set, parity_even,
    parity_odd, signed_less, signed_greater_equal, signed_greater, signed_less_equal,
    unsigned_above, unsigned_below_equal, overflow, overflow_not, carry_set, carry_cleared,
    carry_complemented, carry_kept, carry_of_logic, carry_of_neg, no_carry_of_neg, same_equal,
    same_less, same_greater_equal, same_less_equal, same_greater, same_below_equal, same_above,
    same_sign, same_no_sign, same_parity, same_no_parity, same_overflow, count_zero, count_one,
    low_count_zero, low_count_one, high_count, register_kept, flags_kept, register_lost,
    flags_lost, product_lost, byte_of_unknown, in_memory, across_a_call, loop_head, counted,
    entered, worked_out, inside,
};

int main(void)
{
    static volatile int sum;
    for (unsigned i = 0; i < sizeof all / sizeof all[0]; i++)
        for (int input = -2; input < 4; input++)
            sum += all[i](input);
    return 0;
}
