# 32-bit code: a pointer to code between two lines, of bytes that 64-bit code reads otherwise.
# as: --32
# ld: -m elf_i386
.intel_syntax noprefix
.text
.globl _start
.type _start, @function
_start:
    mov esi, [esp]
    dec esi                         # 0 without arguments, 1 with one
    call [pointer]
.size _start, . - _start

.type f, @function
f:
    xor esi, esi
    .byte 0x3d, 0x90, 0x90, 0x90    # shown as cmp eax, with the next byte
.Lplace:
    .byte 0x48                      # dec eax; in 64-bit code the start of a longer mov
    mov eax, 0
    test esi, esi
    mov ebx, 10
    je 1f
    mov ebx, 20
1:  mov eax, 1
    int 0x80
.size f, . - f

.data
pointer: .long .Lplace
