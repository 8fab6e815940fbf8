extern int __mark(int);

int f(int n) {
    int i = 0;
    int s = 0;
    while (__mark(42) & (i < n)) {
        s = s + i;
        i = i + 1;
    }
    return s;
}
