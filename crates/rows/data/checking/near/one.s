syscall
