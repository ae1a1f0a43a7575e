# 32-bit code: the address of a place is a distance from the own address, which a call leaves on the stack.
# as: --32
# ld: -m elf_i386
.intel_syntax noprefix
.text
.globl _start
.type _start, @function
_start:
    mov esi, [esp]
    dec esi                         # 0 without arguments, 1 with one
    call 1f
    1: pop ecx
    lea ecx, [ecx + .Lplace - 1b]
    call ecx
.size _start, . - _start

.type f, @function
f:
    xor esi, esi
.Lplace:
    test esi, esi
    mov ebx, 10
    je 1f
    mov ebx, 20
1:  mov eax, 1
    int 0x80
.size f, . - f
