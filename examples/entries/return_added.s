# The return address is changed where it stands, some instructions before the
# return.
.intel_syntax noprefix
.text
.globl _start
.type _start, @function
_start:
    mov ebx, [rsp]
    dec ebx                         # 0 without arguments, 1 with one
    call 2f
.Lback:
    xor ebx, ebx
.Lplace:
    test ebx, ebx
    mov edi, 10
    je 1f
    mov edi, 20
1:  mov eax, 60
    syscall
2:  add qword ptr [rsp], offset .Lplace - .Lback
    mov edx, 1
    ret
.size _start, . - _start
