# 32-bit code: a table has distances of code from the own address.
# as: --32
# ld: -m elf_i386 -X
.intel_syntax noprefix
.text
.globl _start
.type _start, @function
_start:
    mov esi, [esp]
    dec esi                         # 0 without arguments, 1 with one
    call 1f
1:  pop ebx
    mov ecx, [ebx + table - 1b]
    add ecx, ebx
    call ecx
.size _start, . - _start

.type f, @function
f:
    xor esi, esi
.Lplace:
    test esi, esi
    mov ebx, 10
    je 2f
    mov ebx, 20
2:  mov eax, 1
    int 0x80
.size f, . - f

table: .long .Lplace - 1b
