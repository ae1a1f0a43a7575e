# Constants in code before a handler that is reached through a pointer in data.
# The disassembler takes the handler's first bytes for the constant of a cmp:
# it shows xor eax, eax; cmp eax, 0x9090db85.
.intel_syntax noprefix
.text
.globl _start
.type _start, @function
_start:
    mov ebx, [rsp]
    dec ebx                         # 0 without arguments, 1 with one
    call [rip + pointer]
.size _start, . - _start

.type f, @function
f:
    .byte 0x31, 0xc0, 0x3d
.Lhandler:
    test ebx, ebx
    nop
    nop
    mov edi, 10
    je 1f
    mov edi, 20
1:  mov eax, 60
    syscall
.size f, . - f

.data
.balign 8
pointer: .quad .Lhandler
