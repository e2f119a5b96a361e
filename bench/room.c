// Nothing but room: with another ROOM the parts that are linked behind it stand at other addresses.
#define WORDS(x) #x
#define BYTES(x) WORDS(x)
__asm__(".text\n.skip " BYTES(ROOM) ", 0x90\n");
