/* Calls one side over the cases, with no library, so that bench/count-x86 can count its instructions. */
typedef unsigned char u8;
typedef unsigned short u16;
typedef unsigned long u64;
typedef struct { u8 numbers[68]; u16 half_moves, full_moves; } board;
typedef struct { u64 number; board b; } stepped;

stepped menkhodur_board_after(board b, u64 m);
void their_move(const void *board, const void *m, void *out);

void *memcpy(void *to, const void *from, u64 n)
{
    u8 *t = to;
    for (const u8 *f = from; n--;)
        *t++ = *f++;
    return to;
}

void *memset(void *to, int byte, u64 n)
{
    for (u8 *t = to; n--;)
        *t++ = (u8)byte;
    return to;
}

__asm__(".section .rodata\n.balign 16\ncases: .incbin \"cases.bin\"\n.text\n");
extern const u8 cases[];
static u8 their_board[256] __attribute__((aligned(16)));
static stepped our_record;

__attribute__((noinline)) static u64 ours(u64 n)
{
    u64 refused = 0;
    for (const u8 *c = cases; n--; c += 256) {
        our_record = menkhodur_board_after(*(const board *)(c + 168), *(const u16 *)(c + 240));
        refused += our_record.number;
    }
    return refused;
}

__attribute__((noinline)) static u64 theirs(u64 n)
{
    for (const u8 *c = cases; n--; c += 256)
        their_move(c, c + 160, their_board);
    return 0;
}

__attribute__((force_align_arg_pointer)) void _start(void)
{
    u64 status = SIDE(CASES);
    __asm__ volatile("syscall" ::"a"(60UL), "D"(status));
    __builtin_unreachable();
}
