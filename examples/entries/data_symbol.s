# Code under a symbol of a data object, which is shown as characters. It jumps
# into the function behind it.
.intel_syntax noprefix
.text
.globl _start
.type _start, @function
_start:
    mov ebx, [rsp]
    dec ebx                         # 0 without arguments, 1 with one
    call object
.size _start, . - _start

.type object, @object
object:
    nop
    nop
    jmp .Lplace
    .ascii "%\t%"
.size object, . - object

.type f, @function
f:
    xor ebx, ebx
.Lplace:
    test ebx, ebx
    mov edi, 10
    je 1f
    mov edi, 20
1:  mov eax, 60
    syscall
.size f, . - f
