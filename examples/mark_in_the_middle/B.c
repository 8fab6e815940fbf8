extern int __mark(int);

int f(int a) {
    int r = 0;
    if (a > 0) r = 5;
    __mark(5);
    if (a > 0) r = r + 6;
    return r;
}
