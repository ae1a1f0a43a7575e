# What a decided branch leaves out is called from elsewhere.
.intel_syntax noprefix
.text
.globl _start
.type _start, @function
_start:
    mov ebx, [rsp]
    dec ebx                         # 0 without arguments, 1 with one
    xor eax, eax
    je 1f
.Lplace:
    test ebx, ebx
    mov edi, 10
    je 2f
    mov edi, 20
2:  ret
1:  call .Lplace
    mov eax, 60
    syscall
.size _start, . - _start
