# An instruction names an address between two that are shown: a lea, and a call
# through the register.
.intel_syntax noprefix
.text
.globl _start
.type _start, @function
_start:
    mov ebx, [rsp]
    dec ebx                         # 0 without arguments, 1 with one
    lea rcx, [rip + .Lhandler]
    call rcx
.size _start, . - _start

.type f, @function
f:
    .byte 0x31, 0xc0, 0x3d
.Lhandler:
    test ebx, ebx
    nop
    nop
    mov edi, 10
    je 1f
    mov edi, 20
1:  mov eax, 60
    syscall
.size f, . - f
