# A function that is named like the kernel's thunk for returns, and is jumped
# into.
.intel_syntax noprefix
.text
.globl _start
.type _start, @function
_start:
    mov ebx, [rsp]
    dec ebx                         # 0 without arguments, 1 with one
    jmp .Lplace
.size _start, . - _start

.type __x86_return_thunk, @function
__x86_return_thunk:
    xor ebx, ebx
.Lplace:
    test ebx, ebx
    mov edi, 10
    je 1f
    mov edi, 20
1:  mov eax, 60
    syscall
.size __x86_return_thunk, . - __x86_return_thunk
