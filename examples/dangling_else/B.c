/* 2 for what is not positive, and 1 for what is over 1. */
int grade(int a)
{
    int r = 0;
    if (a > 0)
        if (a > 1)
            r = 1;
    else
        r = 2;
    return r;
}
