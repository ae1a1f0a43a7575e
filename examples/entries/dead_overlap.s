# Bytes of an instruction that a decided branch leaves out are entered by a pointer, as other instructions.
.intel_syntax noprefix
.text
.globl _start
.type _start, @function
_start:
    mov ebx, [rsp]
    dec ebx                         # 0 without arguments, 1 with one
    mov rcx, [rip + pointer]
    xor eax, eax
    je 1f
    .byte 0x3d                      # shown as cmp eax, with the next four bytes
.Lplace:
    .byte 0x90, 0x90, 0x90, 0x90
1:  jmp f
.size _start, . - _start

.type f, @function
f:
    test ebx, ebx
    mov edi, 10
    je 2f
    mov edi, 20
    test ecx, ecx
    je 2f
    xor eax, eax
    xchg rcx, rax
    call rax
2:  mov eax, 60
    syscall
.size f, . - f

.data
    .byte 1
pointer: .quad .Lplace
