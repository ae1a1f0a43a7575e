# A return to an address that was pushed before a branch, and before other pushes
# that are taken back.
.intel_syntax noprefix
.text
.globl _start
.type _start, @function
_start:
    mov ebx, [rsp]
    dec ebx                         # 0 without arguments, 1 with one
    call f
.size _start, . - _start

.type f, @function
f:
    lea rcx, [rip + f]
    add rcx, offset .Lplace - f
    push rcx
    push rdx
    cmp esi, 3
    je 2f
    pop rdx
    nop
2:  ret
    xor ebx, ebx
.Lplace:
    test ebx, ebx
    mov edi, 10
    je 1f
    mov edi, 20
1:  mov eax, 60
    syscall
.size f, . - f
