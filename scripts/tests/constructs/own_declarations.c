extern int printf(const char *format, ...);
extern int getchar(), strlen(), puts();
char *strcpy();
extern void exit(int);
int isdigit(int c);
char s[9];
int main(void)
{
    char *strcat();
    int putchar(int c);
    strcpy(s, "abc");
    strcat(s, "d");
    printf("%s %d %d %d\n", s, (int)strlen(s), 'ab', isdigit('7') != 0);
    putchar('x');
    exit(3);
}
