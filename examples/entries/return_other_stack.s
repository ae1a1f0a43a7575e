# A return from another stack.
.intel_syntax noprefix
.text
.globl _start
.type _start, @function
_start:
    mov ebx, [rsp]
    dec ebx                         # 0 without arguments, 1 with one
    call f
.size _start, . - _start

.type f, @function
f:
    lea rcx, [rip + f]
    add rcx, offset .Lplace - f
    mov [rip + stack], rcx
    lea rsp, [rip + stack]
    ret
    xor ebx, ebx
.Lplace:
    test ebx, ebx
    mov edi, 10
    je 1f
    mov edi, 20
1:  mov eax, 60
    syscall
.size f, . - f

.bss
.balign 16
    .zero 4096
stack: .zero 64
