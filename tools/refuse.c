// Refuses growths of memory of a program that is run with this library preloaded: with REFUSE=N the Nth, with REFUSE=N.. all from it on.
// At the end it writes how many there were to the file that GROWTHS names. What comes before the program begins is not counted.
// It needs no header, so that the compiler of the toolchain makes it where there is no other.
typedef __SIZE_TYPE__ size_t;

void *__libc_malloc(size_t);
void *__libc_realloc(void *, size_t);
char *getenv(const char *);
char *strstr(const char *, const char *);
long atol(const char *);
int creat(const char *, unsigned);
int dprintf(int, const char *, ...);

static long growths, refused;
static int begun, on;

__attribute__((constructor)) static void begin(void)
{
    const char *said = getenv("REFUSE");
    refused = said ? atol(said) : 0;
    on = said && strstr(said, "..");
    begun = 1;
}

__attribute__((destructor)) static void end(void)
{
    const char *name = getenv("GROWTHS");
    int file = begun && name ? creat(name, 0600) : -1;
    begun = 0;
    if (file >= 0)
        dprintf(file, "%ld\n", growths);
}

static int is_refused(void)
{
    if (!begun)
        return 0;
    growths++;
    return refused && (on ? growths >= refused : growths == refused);
}

void *malloc(size_t size)
{
    return is_refused() ? 0 : __libc_malloc(size);
}

void *realloc(void *held, size_t size)
{
    return is_refused() ? 0 : __libc_realloc(held, size);
}
