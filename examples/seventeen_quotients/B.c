int f(int a) {
    int r = 0;
    r += a / 2;
    r += a / 2;
    r += a / 2;
    r += a / 2;
    r += a / 2;
    r += a / 2;
    r += a / 2;
    r += a / 2;
    r += a / 2;
    r += a / 2;
    r += a / 2;
    r += a / 2;
    r += a / 2;
    r += a / 2;
    r += a / 2;
    r += a / 2;
    r += a / 2;
    return r;
}
