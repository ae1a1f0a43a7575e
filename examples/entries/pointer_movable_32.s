# 32-bit code that is loaded anywhere: the addend of a relocation stands in its place.
# as: --32
# ld: -m elf_i386 -pie -dynamic-linker /lib/ld-linux.so.2
.intel_syntax noprefix
.text
.globl _start
.type _start, @function
_start:
    mov esi, [esp]
    dec esi                         # 0 without arguments, 1 with one
    call 1f
    1: pop ecx
    add ecx, offset pointer - 1b
    mov ecx, [ecx]
    call ecx
.size _start, . - _start

.type f, @function
f:
    xor esi, esi
.Lplace:
    test esi, esi
    mov ebx, 10
    je 1f
    mov ebx, 20
1:  mov eax, 1
    int 0x80
.size f, . - f

.data
pointer: .long .Lplace
