# The address of a place is the displacement of an operand: the file is not position-independent.
.intel_syntax noprefix
.text
.globl _start
.type _start, @function
_start:
    mov ebx, [rsp]
    dec ebx                         # 0 without arguments, 1 with one
    xor ecx, ecx
    lea rcx, [rcx + .Lplace]
    call rcx
.size _start, . - _start

.type f, @function
f:
    xor ebx, ebx
.Lplace:
    test ebx, ebx
    mov edi, 10
    je 1f
    mov edi, 20
1:  mov eax, 60
    syscall
.size f, . - f
