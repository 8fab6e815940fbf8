/* How many bits it takes to write n. */
int bits(int n)
{
    int count = 0;
    for (int power = 1; power < n; power += power)
        count++;
    return count;
}
