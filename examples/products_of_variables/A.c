extern int __mark(int);

int f(int x) {
    int i = 0;
    while (__mark(3) & (i < 60)) {
        x = x * x;
        i = i + 1;
    }
    return x;
}
