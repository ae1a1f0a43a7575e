# f2 0f bc b8 and four bytes more: bsf edi, [rax], which runs with the prefix f2
# and without it. Shown are three bytes that are no code, and mov eax, 0.
.intel_syntax noprefix
.text
.globl _start
.type _start, @function
_start:
    mov ebx, [rsp]
    dec ebx                         # 0 without arguments, 1 with one
    call f
.size _start, . - _start

.type f, @function
f:
    lea rax, [rip + numbers]
    lea rax, [rax + 8 * rbx]
    .byte 0xf2, 0x0f, 0xbc, 0xb8, 0, 0, 0, 0
    cmp eax, offset numbers
    mov edi, 10
    je 1f
    mov edi, 20
1:  mov eax, 60
    syscall
.size f, . - f

.data
.balign 8
numbers: .quad 1, 1
