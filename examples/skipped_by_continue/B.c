extern int __mark(int);

int f(int n) {
    int s = 0;
    int i = 0;
    while (__mark(7) & (i < n)) {
        if (i != 3) s = s + i;
        i = i + 1;
    }
    return s;
}
