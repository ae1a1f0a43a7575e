# The return address is changed through a register that has the address of the
# stack.
.intel_syntax noprefix
.text
.globl _start
.type _start, @function
_start:
    mov ebx, [rsp]
    dec ebx                         # 0 without arguments, 1 with one
    call f
.size _start, . - _start

.type f, @function
f:
    lea rcx, [rip + f]
    add rcx, offset .Lplace - f
    mov rdx, rsp
    mov [rdx], rcx
    mov edx, 1
    ret
    xor ebx, ebx
.Lplace:
    test ebx, ebx
    mov edi, 10
    je 1f
    mov edi, 20
1:  mov eax, 60
    syscall
.size f, . - f
