# 66 before a branch: its displacement has two bytes on AMD's processors and four
# on Intel's, where the xor is no instruction.
.intel_syntax noprefix
.text
.globl _start
.type _start, @function
_start:
    mov ebx, [rsp]
    dec ebx                         # 0 without arguments, 1 with one
    call f
.size _start, . - _start

.type f, @function
f:
    mov eax, ebx
    cmp eax, eax
    .byte 0x66, 0x0f, 0x85, 0, 0
    xor eax, eax
    test eax, eax
    mov edi, 10
    je 1f
    mov edi, 20
1:  test ebx, ebx
    mov edi, 10
    je 1f
    mov edi, 20
1:  mov eax, 60
    syscall
.size f, . - f
