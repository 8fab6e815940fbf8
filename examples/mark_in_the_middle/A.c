extern int __mark(int);

int f(int a) {
    int r = 0;
    if (a > 0) r++;
    if (a > 0) r++;
    if (a > 0) r++;
    if (a > 0) r++;
    if (a > 0) r++;
    __mark(5);
    if (a > 0) r++;
    if (a > 0) r++;
    if (a > 0) r++;
    if (a > 0) r++;
    if (a > 0) r++;
    if (a > 0) r++;
    return r;
}
