# What is called takes its return address off the stack, and returns to what was
# pushed before the call.
.intel_syntax noprefix
.text
.globl _start
.type _start, @function
_start:
    mov ebx, [rsp]
    dec ebx                         # 0 without arguments, 1 with one
    lea rcx, [rip + _start]
    add rcx, offset .Lplace - _start
    push rcx
    call 2f
    xor ebx, ebx
.Lplace:
    test ebx, ebx
    mov edi, 10
    je 1f
    mov edi, 20
1:  mov eax, 60
    syscall
2:  pop rdx
    ret
.size _start, . - _start
