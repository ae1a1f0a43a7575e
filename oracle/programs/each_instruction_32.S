/* The instructions of 32-bit code as each_instruction.c has those of 64-bit code: the modelled ones, those of
   the lister's table that every such processor has, and those that 64-bit code does not have, on random registers
   and flags.

     cc -m32 -c -o each.o oracle/programs/each_instruction_32.S
     ld -m elf_i386 -o each each.o

   Registers at the start of each: eax, ecx, edx and ebp random, edi, esi and ebx the address of some memory. */
.intel_syntax noprefix

#define TRY(...)                                                                         \
    call fill; push dword ptr [flags]; popf;                                             \
    mov eax, [values]; mov ecx, [values+4]; mov edx, [values+8]; mov ebp, [values+12];   \
    lea edi, [memory+256]; lea esi, [memory+512]; lea ebx, [memory];                     \
    movd xmm0, eax; movd xmm1, ecx; __VA_ARGS__; cld

/* A mnemonic at each size, on registers and memory. */
#define SIZES(name)                                                                      \
    TRY(name al, cl); TRY(name ah, 5); TRY(name cx, bp); TRY(name edx, 0x80);            \
    TRY(name eax, [edi]); TRY(name ecx, eax); TRY(name ebp, -1); TRY(name dl, bh);       \
    TRY(name byte ptr [edi], al); TRY(name dword ptr [edi], 7); TRY(name [edi], edx)
#define SIZES_ONE(name)                                                                  \
    TRY(name al); TRY(name ch); TRY(name dx); TRY(name ebp); TRY(name eax);              \
    TRY(name byte ptr [edi]); TRY(name dword ptr [edi])
#define SHIFT(name)                                                                      \
    TRY(name al, cl); TRY(name cx, 1); TRY(name edx, 7); TRY(name eax, cl);              \
    TRY(name eax, 0); TRY(name dword ptr [edi], cl)
#define BITS(name) TRY(name eax, ecx); TRY(name dx, 3); TRY(name dword ptr [edi], 3)
#define CONDITIONS(name, ...)                                                            \
    TRY(name##o __VA_ARGS__); TRY(name##no __VA_ARGS__); TRY(name##b __VA_ARGS__);       \
    TRY(name##ae __VA_ARGS__); TRY(name##e __VA_ARGS__); TRY(name##ne __VA_ARGS__);      \
    TRY(name##be __VA_ARGS__); TRY(name##a __VA_ARGS__); TRY(name##s __VA_ARGS__);       \
    TRY(name##ns __VA_ARGS__); TRY(name##p __VA_ARGS__); TRY(name##np __VA_ARGS__);      \
    TRY(name##l __VA_ARGS__); TRY(name##ge __VA_ARGS__); TRY(name##le __VA_ARGS__);      \
    TRY(name##g __VA_ARGS__)
/* One that takes one of the registers by its number in a single byte. */
#define ONE_BYTE(name)                                                                   \
    TRY(name eax); TRY(name ecx); TRY(name edx); TRY(name ebx); TRY(name ebp);           \
    TRY(name esi); TRY(name edi); TRY(name ax); TRY(name di)

#define CHANGED inc eax; inc ecx; inc edx; inc ebx; inc ebp; inc esi; inc edi

.bss
.balign 64
memory: .skip 1024
values: .skip 16
flags: .skip 4
pointer: .skip 8
rounds: .skip 4

.data
state: .long 0x9e3779b9
bounds: .long 0, 0x7fffffff

.text
.type fill, @function
fill:
    mov eax, [state]
    mov edx, eax
    shl edx, 13
    xor eax, edx
    mov edx, eax
    shr edx, 17
    xor eax, edx
    mov edx, eax
    shl edx, 5
    xor eax, edx
    mov [state], eax
    mov [values], eax
    imul edx, eax, 0x2c9277b5
    mov [values+4], edx
    imul edx, edx, 0x2c9277b5
    mov [values+12], edx
    and edx, eax
    mov [values+8], edx
    /* Of the flags CF, PF, ZF, SF and OF are random. */
    and eax, 0x8c5
    or eax, 0x202
    mov [flags], eax
    ret
.size fill, . - fill

.type takes_its_argument, @function
takes_its_argument:
    mov eax, [esp+4]
    ret 4
.size takes_its_argument, . - takes_its_argument

.globl _start
.type _start, @function
_start:
    mov [pointer+4], ds
    mov dword ptr [rounds], 2
again:
    call modelled
    call integer
    call strings
    call not_in_64_bits
    call vectors
    dec dword ptr [rounds]
    jne again
    mov eax, 1
    xor ebx, ebx
    int 0x80
.size _start, . - _start

.type modelled, @function
modelled:
    SIZES(mov); SIZES(add); SIZES(sub); SIZES(cmp); SIZES(and); SIZES(or); SIZES(xor)
    TRY(test al, cl); TRY(test eax, 7); TRY(test [edi], ecx); TRY(test ebp, ebp)
    SIZES_ONE(not); SIZES_ONE(inc); SIZES_ONE(dec); SIZES_ONE(neg)
    TRY(stc); TRY(clc); TRY(cmc); TRY(mov eax, ds); TRY(mov [edi], es); TRY(mov ecx, fs)
    TRY(lock add dword ptr [edi], ecx); TRY(lock inc byte ptr [edi]); TRY(lock neg dword ptr [edi])
    TRY(mov eax, ds:[memory]); TRY(mov ds:[memory], al); TRY(.byte 0x82, 0xc0, 5)
    CONDITIONS(j, 1f; inc eax; 1:); TRY(jecxz 1f; inc eax; 1:); TRY(jcxz 1f; inc eax; 1:)
    TRY(xor ecx, ecx; jecxz 1f; inc eax; 1:); TRY(mov ecx, 0x10000; jcxz 1f; inc eax; 1:)
    TRY(mov ecx, 3; 1: loop 1b); TRY(mov ecx, 3; 1: loope 1b); TRY(mov ecx, 3; 1: loopne 1b)
    ret
.size modelled, . - modelled

.type integer, @function
integer:
    TRY(nop); TRY(endbr32); TRY(pause); TRY(lfence); TRY(mfence); TRY(sfence); TRY(std)
    TRY(prefetcht0 [edi]); TRY(movnti [edi], eax); TRY(lea eax, [ecx+edx*4+5]); TRY(lea ax, [bx+si])
    TRY(movzx eax, cl); TRY(movzx edx, word ptr [edi]); TRY(movsx ecx, dl); TRY(bswap eax)
    CONDITIONS(set, al); CONDITIONS(set, byte ptr [edi]); CONDITIONS(cmov, ecx, eax)
    TRY(xchg eax, ecx); TRY(xchg [edi], edx); TRY(xchg al, ah); TRY(xadd al, cl); TRY(lock xadd [edi], ecx)
    SIZES(adc); SIZES(sbb)
    SHIFT(shl); SHIFT(shr); SHIFT(sar); SHIFT(rol); SHIFT(ror); SHIFT(rcl); SHIFT(rcr)
    TRY(shld eax, edx, 5); TRY(shrd [edi], eax, cl); BITS(bt); BITS(bts); BITS(btr); BITS(btc)
    TRY(bsf eax, ecx); TRY(bsr edx, eax); TRY(cmpxchg ecx, edx); TRY(lock cmpxchg [edi], ecx); TRY(cmpxchg8b [edi])
    TRY(mul cl); TRY(mul dx); TRY(mul ecx); TRY(mul dword ptr [edi]); TRY(imul cl); TRY(imul ecx)
    TRY(imul eax, ecx); TRY(imul eax, [edi], 7); TRY(xor edx, edx; or ecx, 1; div ecx)
    TRY(mov eax, 77; cdq; mov ecx, -5; idiv ecx); TRY(cbw); TRY(cwde); TRY(cwd); TRY(cdq); TRY(xlatb)
    TRY(lahf); TRY(sahf); TRY(push eax; pop ecx); TRY(push 5; pop dword ptr [edi]); TRY(pushf; popf)
    TRY(enter 16, 0; leave); TRY(xor ecx, ecx; xor eax, eax; cpuid); TRY(rdtsc)
    TRY(push 5; call takes_its_argument); TRY(mov eax, 20; int 0x80)
    ret
.size integer, . - integer

.type strings, @function
strings:
    TRY(movsb); TRY(movsw); TRY(movsd); TRY(stosb); TRY(stosd); TRY(lodsb); TRY(lodsd); TRY(cmpsb); TRY(cmpsd)
    TRY(scasb); TRY(scasd); TRY(mov ecx, 5; rep movsb); TRY(mov ecx, 5; rep stosd); TRY(mov ecx, 5; rep lodsb)
    TRY(mov ecx, 5; repe cmpsb); TRY(mov ecx, 5; repne scasb); TRY(std; mov ecx, 3; rep movsd)
    ret
.size strings, . - strings

.type not_in_64_bits, @function
not_in_64_bits:
    ONE_BYTE(inc); ONE_BYTE(dec)
    TRY(pusha; CHANGED; popa); TRY(pushaw; CHANGED; popaw); TRY(pushfw; popfw)
    TRY(push ds; pop ds); TRY(push es; pop es); TRY(push ss; pop eax); TRY(push cs; pop ecx)
    TRY(push fs; pop fs); TRY(push gs; pop gs)
    TRY(les eax, [pointer]); TRY(lds ecx, [pointer]); TRY(les dx, [pointer+2])
    TRY(push gs; lgs ebp, [pointer]; pop gs); TRY(push fs; lfs edx, [pointer]; pop fs)
    TRY(aaa); TRY(aas); TRY(daa); TRY(das); TRY(aam); TRY(aad); TRY(aam 7); TRY(aad 3)
    TRY(mov ax, 0x0a); TRY(mov ax, 0x0a; aaa); TRY(mov al, 0x9a; clc; daa)
    TRY(test eax, eax; into); TRY(and eax, 0x7fffffff; bound eax, [bounds]); TRY(arpl ax, cx)
    ret
.size not_in_64_bits, . - not_in_64_bits

.type vectors, @function
vectors:
    TRY(movd eax, xmm0); TRY(movmskps edx, xmm0); TRY(pmovmskb ecx, xmm0); TRY(pextrw edx, xmm0, 1)
    TRY(cvtss2si eax, xmm0); TRY(cvttsd2si edx, xmm0); TRY(cvtsi2sd xmm0, eax); TRY(comiss xmm0, xmm1)
    TRY(ucomisd xmm0, xmm1); TRY(pxor xmm0, xmm0); TRY(movups [edi], xmm0)
    TRY(fninit; fld1; fldz; fcomi st, st(1)); TRY(fninit; fld1; fxam; fnstsw ax)
    ret
.size vectors, . - vectors
