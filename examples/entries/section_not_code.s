# ld: -z noseparate-code
# Code in a section of constants, which is loaded with the code. It goes to the
# middle of a function.
.intel_syntax noprefix
.text
.globl _start
.type _start, @function
_start:
    mov ebx, [rsp]
    dec ebx                         # 0 without arguments, 1 with one
    call constants
.size _start, . - _start

.type f, @function
f:
    xor ebx, ebx
.Lplace:
    test ebx, ebx
    mov edi, 10
    je 1f
    mov edi, 20
1:  mov eax, 60
    syscall
.size f, . - f

.section .rodata
constants:
    nop
    jmp .Lplace
