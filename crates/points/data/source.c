int grade(int mark)
{
    if (mark < 5)
        return 'F';
    return 'P';
}

int main(void)
{
    int c = getchar();
    if (c == -1)
        return 1;
    putchar(grade(c - '0'));
    return 0;
}
