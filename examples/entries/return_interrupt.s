# A return from an interrupt goes to the address on the stack.
.intel_syntax noprefix
.text
.globl _start
.type _start, @function
_start:
    mov ebx, [rsp]
    dec ebx                         # 0 without arguments, 1 with one
    call f
.size _start, . - _start

.type f, @function
f:
    lea rcx, [rip + f]
    add rcx, offset .Lplace - f
    mov rdx, rsp
    mov eax, ss
    push rax
    push rdx
    pushf
    mov eax, cs
    push rax
    push rcx
    iretq
    xor ebx, ebx
.Lplace:
    test ebx, ebx
    mov edi, 10
    je 1f
    mov edi, 20
1:  mov eax, 60
    syscall
.size f, . - f
