extern int __mark(int);

int f(int x) {
    int i = 0;
    while (__mark(3) & (i < 60)) {
        i = i + 1;
        x = x * x;
    }
    return x;
}
