typedef __PTRDIFF_TYPE__ ssize_t;
ssize_t read(int, void *, __SIZE_TYPE__);
ssize_t write(int, const void *, __SIZE_TYPE__);
_Noreturn void _exit(int);
