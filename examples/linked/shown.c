/* Shows its own code, data and zeros on the console, byte by byte, and stops the machine. */

typedef unsigned char byte;

/* Where the code and the data begin and end: start.s names the beginnings, and ld the ends. */
#define HERE __attribute__((visibility("hidden")))
extern const byte text_start[] HERE;
extern const byte _etext[] HERE;
extern const byte data_start[] HERE;
extern const byte _edata[] HERE;
extern const byte __bss_start[] HERE;
extern const byte _end[] HERE;

/* A byte that is stored here is shown on the console. */
static volatile byte *const console = (volatile byte *)0x10000000;

/* A store here stops the machine. */
static volatile byte *const control = (volatile byte *)0x10001000;

/* With -DWITHOUT_DATA the zeros are all that is written to. */
#ifndef WITHOUT_DATA
volatile byte greeting[] = "hello, from the data\n";
#endif

volatile byte zeros[64];

static void show(const byte *from, const byte *to)
{
    while (from != to)
        *console = *from++;
}

void show_all(void)
{
    show(text_start, _etext);
#ifndef WITHOUT_DATA
    show(data_start, _edata);
#endif
    show(__bss_start, _end);
    zeros[0] = 1;
    *control = 0;
}
