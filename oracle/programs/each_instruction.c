/* Runs the instructions of the lister's table, and the modelled ones, on random
   registers and flags, so that trace_steps can see what they change. Those that
   not every processor has are run where this one has them.

   Registers at the start of each: rax, rcx, rdx, r8 and r9 random, rdi, rsi and
   rbx the address of some memory. */
#include <stdint.h>

uint64_t values[8];
_Alignas(64) unsigned char memory[1024];

static uint64_t state = 0x9e3779b97f4a7c15;

/* One random number, and others made from it, so that it takes few steps. */
static void fill(void)
{
    state ^= state << 13;
    state ^= state >> 7;
    state ^= state << 17;
    values[0] = state;
    values[1] = state >> 9;
    values[2] = state * 0xd1342543de82ef95;
    values[3] = state >> 60 ? values[2] >> 31 : 0;
    values[4] = -state >> (state & 63);
    /* Of the flags CF, PF, ZF, SF and OF are random. */
    values[5] = (state >> 20 & 0x8c5) | 0x202;
}

#define BEHIND_RED_ZONE "lea rsp, [rsp-512]\n\t"
#define LOADED                                                                            \
    "push qword ptr [rip+values+40]\n\tpopfq\n\t"                                         \
    "mov rax, [rip+values]\n\tmov rcx, [rip+values+8]\n\tmov rdx, [rip+values+16]\n\t"    \
    "mov r8, [rip+values+24]\n\tmov r9, [rip+values+32]\n\t"                              \
    "lea rdi, [rip+memory+256]\n\tlea rsi, [rip+memory+512]\n\tlea rbx, [rip+memory]\n\t" \
    "movq xmm0, rax\n\tmovq xmm1, rcx\n\t"

#define TRY(text)                                                                            \
    fill();                                                                                  \
    __asm__ volatile(".intel_syntax noprefix\n\t" BEHIND_RED_ZONE LOADED text                \
                     "\n\tcld\n\tlea rsp, [rsp+512]\n\t.att_syntax prefix" ::                \
                         : "rax", "rbx", "rcx", "rdx", "rsi", "rdi", "r8", "r9", "r10", "r11", \
                           "cc", "memory")

/* A mnemonic at each size, on registers and memory. */
#define SIZES(name)                                                                       \
    TRY(name " al, cl"); TRY(name " ah, 5"); TRY(name " cx, r8w"); TRY(name " edx, 0x80"); \
    TRY(name " eax, [rdi]"); TRY(name " rcx, rax"); TRY(name " r8, -1");                  \
    TRY(name " byte ptr [rdi], al"); TRY(name " dword ptr [rdi], 7"); TRY(name " [rdi], r9")
#define SIZES_ONE(name)                                                                   \
    TRY(name " al"); TRY(name " ch"); TRY(name " dx"); TRY(name " r8d"); TRY(name " rax"); \
    TRY(name " byte ptr [rdi]"); TRY(name " qword ptr [rdi]")
#define SHIFT(name)                                                                       \
    TRY(name " al, cl"); TRY(name " cx, 1"); TRY(name " edx, 7"); TRY(name " rax, cl");   \
    TRY(name " r8, 63"); TRY(name " eax, 0"); TRY(name " dword ptr [rdi], cl")
#define BITS(name)                                                                        \
    TRY(name " eax, ecx"); TRY(name " dx, 3"); TRY(name " r8, 33"); TRY(name " dword ptr [rdi], 3")
#define CONDITIONS(name, operands)                                                        \
    TRY(name "o " operands); TRY(name "no " operands); TRY(name "b " operands);           \
    TRY(name "ae " operands); TRY(name "e " operands); TRY(name "ne " operands);          \
    TRY(name "be " operands); TRY(name "a " operands); TRY(name "s " operands);           \
    TRY(name "ns " operands); TRY(name "p " operands); TRY(name "np " operands);          \
    TRY(name "l " operands); TRY(name "ge " operands); TRY(name "le " operands);          \
    TRY(name "g " operands)

static void modelled(void)
{
    SIZES("mov"); SIZES("add"); SIZES("sub"); SIZES("cmp"); SIZES("and"); SIZES("or");
    SIZES("xor");
    TRY("test al, cl"); TRY("test eax, 7"); TRY("test [rdi], rcx"); TRY("test rax, rax");
    SIZES_ONE("not"); SIZES_ONE("inc"); SIZES_ONE("dec"); SIZES_ONE("neg");
    TRY("stc"); TRY("clc"); TRY("cmc"); TRY("movabs rax, 0x123456789abcdef0");
    TRY("mov eax, ds"); TRY("mov [rdi], es"); TRY("mov ecx, fs");
    TRY("lock add dword ptr [rdi], ecx"); TRY("lock inc byte ptr [rdi]");
    TRY("lock neg qword ptr [rdi]"); TRY("lock not word ptr [rdi]");
}

static void integer(void)
{
    TRY("nop"); TRY("endbr64"); TRY("pause"); TRY("lfence"); TRY("mfence"); TRY("sfence");
    TRY("clflush [rdi]"); TRY("prefetcht0 [rdi]"); TRY("prefetcht1 [rdi]");
    TRY("prefetcht2 [rdi]"); TRY("prefetchnta [rdi]"); TRY("cld"); TRY("std");
    TRY("movnti [rdi], eax"); TRY("lea rax, [rcx+rdx*4+5]"); TRY("lea ecx, [rax]");
    TRY("movzx eax, cl"); TRY("movzx rdx, word ptr [rdi]"); TRY("movsx ecx, dl");
    TRY("movsx r8, ax"); TRY("movsxd rax, ecx"); TRY("bswap eax"); TRY("bswap r8");
    CONDITIONS("set", "al"); CONDITIONS("set", "byte ptr [rdi]");
    CONDITIONS("cmov", "ecx, eax"); CONDITIONS("cmov", "rdx, [rdi]");
    TRY("xchg eax, ecx"); TRY("xchg [rdi], rdx"); TRY("xchg al, ah");
    TRY("xadd al, cl"); TRY("xadd [rdi], edx"); TRY("lock xadd [rdi], rcx");
    SIZES("adc"); SIZES("sbb");
    SHIFT("shl"); SHIFT("shr"); SHIFT("sar"); SHIFT("rol"); SHIFT("ror"); SHIFT("rcl");
    SHIFT("rcr");
    TRY("shld eax, edx, 5"); TRY("shld r8, rax, cl"); TRY("shrd eax, edx, 5");
    TRY("shrd [rdi], rax, cl");
    BITS("bt"); BITS("bts"); BITS("btr"); BITS("btc");
    TRY("bsf eax, ecx"); TRY("bsr rdx, rax"); TRY("bsf rcx, [rdi]");
    TRY("cmpxchg cl, dl"); TRY("cmpxchg ecx, edx"); TRY("lock cmpxchg [rdi], r8");
    TRY("cmpxchg8b [rdi]"); TRY("lock cmpxchg8b [rdi]");
    TRY("mul cl"); TRY("mul dx"); TRY("mul ecx"); TRY("mul r8"); TRY("mul qword ptr [rdi]");
    TRY("imul cl"); TRY("imul dx"); TRY("imul ecx"); TRY("imul r8");
    TRY("imul eax, ecx"); TRY("imul rdx, [rdi]"); TRY("imul eax, ecx, 100"); TRY("imul rax, [rdi], 7");
    TRY("mov ah, 0\n\tmov cl, 9\n\tdiv cl"); TRY("xor edx, edx\n\tor ecx, 1\n\tdiv ecx");
    TRY("xor edx, edx\n\tor rcx, 1\n\tdiv rcx"); TRY("mov eax, 77\n\tcdq\n\tmov ecx, 5\n\tidiv ecx");
    TRY("mov eax, 77\n\tcqo\n\tmov ecx, -5\n\tmovsxd rcx, ecx\n\tidiv rcx");
    TRY("cbw"); TRY("cwde"); TRY("cdqe"); TRY("cwd"); TRY("cdq"); TRY("cqo"); TRY("xlatb");
    TRY("lahf"); TRY("sahf"); TRY("push rax\n\tpop rcx"); TRY("push 5\n\tpop qword ptr [rdi]");
    TRY("push qword ptr [rdi]\n\tpop r8"); TRY("pushfq\n\tpopfq");
    TRY("enter 16, 0\n\tleave"); TRY("xor ecx, ecx\n\txor eax, eax\n\tcpuid"); TRY("rdtsc");
}

static void strings(void)
{
    TRY("movsb"); TRY("movsw"); TRY("movsd"); TRY("movsq"); TRY("stosb"); TRY("stosd");
    TRY("stosq"); TRY("lodsb"); TRY("lodsd"); TRY("lodsq"); TRY("cmpsb"); TRY("cmpsq");
    TRY("scasb"); TRY("scasd");
    TRY("mov ecx, 5\n\trep movsb"); TRY("mov ecx, 5\n\trep stosq"); TRY("mov ecx, 5\n\trep lodsb");
    TRY("mov ecx, 5\n\trepe cmpsb"); TRY("mov ecx, 5\n\trepne scasb"); TRY("xor ecx, ecx\n\trep stosb");
    TRY("std\n\tmov ecx, 3\n\trep movsd");
}

static void floating(void)
{
    TRY("fninit\n\tfld1\n\tfldz\n\tfcomi st, st(1)"); TRY("fninit\n\tfld1\n\tfld1\n\tfcomip st, st(1)");
    TRY("fninit\n\tfldz\n\tfld1\n\tfucomi st, st(1)"); TRY("fninit\n\tfldpi\n\tfld1\n\tfucomip st, st(1)");
    TRY("fninit\n\tfld1\n\tfxam\n\tfnstsw ax"); TRY("fninit\n\tfild qword ptr [rdi]\n\tfistp qword ptr [rsi]");
    TRY("fninit\n\tfld1\n\tfld1\n\tfcmovb st, st(1)\n\tfadd st, st(1)\n\tfstp qword ptr [rdi]");
    TRY("fnstcw [rdi]\n\tfldcw [rdi]");
    TRY("movd eax, xmm0"); TRY("movq rcx, xmm0"); TRY("movmskps edx, xmm0"); TRY("movmskpd eax, xmm0");
    TRY("pmovmskb ecx, xmm0"); TRY("pextrw edx, xmm0, 1"); TRY("pinsrw xmm0, eax, 2");
    TRY("cvtss2si eax, xmm0"); TRY("cvtsd2si rcx, xmm0"); TRY("cvttss2si edx, xmm0");
    TRY("cvttsd2si rax, xmm0"); TRY("cvtsi2sd xmm0, rax"); TRY("cvtsi2ss xmm0, ecx");
    TRY("comiss xmm0, xmm1"); TRY("comisd xmm0, xmm1"); TRY("ucomiss xmm0, xmm1"); TRY("ucomisd xmm0, xmm1");
    TRY("addsd xmm0, xmm1"); TRY("paddb xmm0, xmm1"); TRY("pxor xmm0, xmm0"); TRY("movups [rdi], xmm0");
    TRY("movss xmm0, [rdi]"); TRY("cmpltsd xmm0, xmm1"); TRY("stmxcsr [rdi]\n\tldmxcsr [rdi]");
}

static void not_everywhere(void)
{
    __builtin_cpu_init();
    if (__builtin_cpu_supports("sse4.2") && __builtin_cpu_supports("popcnt")) {
        TRY("popcnt eax, ecx"); TRY("popcnt rdx, [rdi]"); TRY("crc32 eax, cl"); TRY("crc32 r8, rax");
        TRY("ptest xmm0, xmm1"); TRY("pextrb eax, xmm0, 3"); TRY("pextrd ecx, xmm0, 1");
        TRY("pextrq rdx, xmm0, 1"); TRY("extractps eax, xmm0, 0");
        TRY("pcmpistri xmm0, xmm1, 0x1a"); TRY("pcmpestri xmm0, xmm1, 0x1a");
        TRY("pcmpistrm xmm0, xmm1, 0x1a"); TRY("pcmpestrm xmm0, xmm1, 0x1a");
    }
    if (__builtin_cpu_supports("bmi")) {
        TRY("andn eax, ecx, edx"); TRY("bextr rax, rcx, rdx"); TRY("blsi eax, ecx");
        TRY("blsr rdx, rax"); TRY("blsmsk eax, [rdi]"); TRY("tzcnt eax, ecx");
    }
    if (__builtin_cpu_supports("bmi2")) {
        TRY("bzhi eax, ecx, edx"); TRY("mulx r8, rax, rcx"); TRY("rorx eax, ecx, 5");
        TRY("sarx rax, rcx, rdx"); TRY("shlx eax, [rdi], edx"); TRY("shrx eax, ecx, edx");
        TRY("pdep rax, rcx, rdx"); TRY("pext eax, ecx, edx");
    }
    if (__builtin_cpu_supports("avx2")) {
        TRY("vmovd eax, xmm0"); TRY("vpmovmskb ecx, ymm0"); TRY("vptest ymm0, ymm1"); TRY("vtestps xmm0, xmm1");
        TRY("vcomisd xmm0, xmm1"); TRY("vpextrq rdx, xmm0, 1"); TRY("vcvttsd2si rax, xmm0");
        TRY("vpcmpistri xmm0, xmm1, 0x1a"); TRY("vpaddb ymm0, ymm1, ymm0"); TRY("vzeroupper");
    }
    if (__builtin_cpu_supports("avx512bw")) {
        TRY("vpcmpeqb k1, zmm0, zmm1\n\tkmovd eax, k1"); TRY("kxnorw k1, k1, k1\n\tkortestd k1, k1");
        TRY("ktestq k1, k2"); TRY("kmovq rcx, k1"); TRY("vpternlogd zmm0, zmm1, zmm0, 5");
    }
}

int main(void)
{
    for (unsigned i = 0; i < sizeof memory; i += 8, fill())
        *(uint64_t *)(memory + i) = state;
    for (int round = 0; round < 3; round++) {
        modelled();
        integer();
        strings();
        floating();
        not_everywhere();
    }
    return 0;
}
