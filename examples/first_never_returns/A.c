extern int __mark(int);

int f(void) {
    while (__mark(1) & 1) ;
    return 0;
}
