# The return address is changed relative to the frame pointer.
.intel_syntax noprefix
.text
.globl _start
.type _start, @function
_start:
    mov ebx, [rsp]
    dec ebx                         # 0 without arguments, 1 with one
    call f
.size _start, . - _start

.type f, @function
f:
    lea rcx, [rip + f]
    add rcx, offset .Lplace - f
    push rbp
    mov rbp, rsp
    jmp 2f
2:  mov [rbp + 8], rcx
    mov edx, 1
    leave
    ret
    xor ebx, ebx
.Lplace:
    test ebx, ebx
    mov edi, 10
    je 1f
    mov edi, 20
1:  mov eax, 60
    syscall
.size f, . - f
