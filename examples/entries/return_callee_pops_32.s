# 32-bit code: a called function takes its argument off the stack, so that what lies above it is returned to.
# as: --32
# ld: -m elf_i386
.intel_syntax noprefix
.text
.globl _start
.type _start, @function
_start:
    mov esi, [esp]
    dec esi                         # 0 without arguments, 1 with one
    call f
.size _start, . - _start

.type f, @function
f:
    mov ecx, offset f
    add ecx, offset .Lplace - f
    cmp ecx, 5
    jne 2f
    ret
    2: push ecx
    sub esp, 4
    call g
    ret
    xor esi, esi
.Lplace:
    test esi, esi
    mov ebx, 10
    je 1f
    mov ebx, 20
1:  mov eax, 1
    int 0x80
.size f, . - f

.type g, @function
g:
    ret 4
.size g, . - g
