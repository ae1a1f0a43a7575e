# 32-bit code: a far call names its target behind a segment.
# as: --32
# ld: -m elf_i386
.intel_syntax noprefix
.text
.globl _start
.type _start, @function
_start:
    mov esi, [esp]
    dec esi                         # 0 without arguments, 1 with one
    .byte 0x9a                      # call 0x23:.Lplace
    .long .Lplace
    .word 0x23
.size _start, . - _start

.type f, @function
f:
    xor esi, esi
.Lplace:
    test esi, esi
    mov ebx, 10
    je 1f
    mov ebx, 20
1:  mov eax, 1
    int 0x80
.size f, . - f
