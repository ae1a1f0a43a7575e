# 32-bit code: a table has distances of code from the table of slots.
# as: --32
# ld: -m elf_i386 -X
.intel_syntax noprefix
.text
.globl _start
.type _start, @function
_start:
    mov esi, [esp]
    dec esi                         # 0 without arguments, 1 with one
    call own
    add ebx, offset _GLOBAL_OFFSET_TABLE_
    mov ecx, [ebx + table@GOTOFF]
    add ecx, ebx
    call ecx
.size _start, . - _start

.type f, @function
f:
    xor esi, esi
.Lplace:
    test esi, esi
    mov ebx, 10
    je 1f
    mov ebx, 20
1:  mov eax, 1
    int 0x80
.size f, . - f

.type own, @function
own:
    mov ebx, [esp]
    ret
.size own, . - own

.section .rodata
.balign 4
table: .long .Lplace@GOTOFF
