/* How far apart a and b are. */
int distance(int a, int b)
{
    return a > b ? a - b : b - a;
}
