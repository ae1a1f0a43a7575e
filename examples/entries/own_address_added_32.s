# 32-bit code: the own address is handed back by a function, and the distance of a place is added to it.
# as: --32
# ld: -m elf_i386
.intel_syntax noprefix
.text
.globl _start
.type _start, @function
_start:
    mov esi, [esp]
    dec esi                         # 0 without arguments, 1 with one
    call own
    1: add ecx, offset .Lplace - 1b
    call ecx
.size _start, . - _start

.type f, @function
f:
    xor esi, esi
.Lplace:
    test esi, esi
    mov ebx, 10
    je 1f
    mov ebx, 20
1:  mov eax, 1
    int 0x80
.size f, . - f

.type own, @function
own:
    mov ecx, [esp]
    ret
.size own, . - own
