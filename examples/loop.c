/* The loop runs one turn too many. */
int a[8];
int main(void)
{
    int i;
    for (i = 0; i < 8; i++)
        a[i] = i;
    for (i = 0; i <= 8; i++)
        a[i] = 0;
    return a[7];
}
