# endbr64 is the only sign that a place is entered: its address is worked out.
.intel_syntax noprefix
.text
.globl _start
.type _start, @function
_start:
    mov ebx, [rsp]
    dec ebx                         # 0 without arguments, 1 with one
    lea rcx, [rip + f]
    add rcx, offset .Lplace - f
    call rcx
.size _start, . - _start

.type f, @function
f:
    xor ebx, ebx
.Lplace:
    endbr64
    test ebx, ebx
    mov edi, 10
    je 1f
    mov edi, 20
1:  mov eax, 60
    syscall
.size f, . - f
