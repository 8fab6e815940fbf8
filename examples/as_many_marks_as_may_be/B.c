extern int __mark(int);

int f(void) {
    int i = 0;
    while (__mark(1) & (i < 63)) i = i + 1;
    return i;
}
