extern int __mark(int);

int f(int n) {
    int i = 0;
    int s = 0;
    while (__mark(42) & (i + 1 < n)) {
        s = s + i;
        s = s + i + 1;
        i = i + 2;
    }
    if (i < n) s = s + i;
    return s;
}
