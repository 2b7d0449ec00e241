typedef unsigned long long u64; typedef unsigned int u32; typedef unsigned short u16; typedef unsigned char u8;

static const u8 steps[16] = { 3, 1, 4, 1, 5, 9, 2, 6, 5, 3, 5, 8, 9, 7, 9, 3 };
static const u32 weights[8] = { 2, 7, 1, 8, 2, 8, 1, 4000000000u };
static const u64 bounds[4] __attribute__((section(".rodata.bounds"))) = { 10, 1000, 100000, ~0ull };

u64 mixed(u8 *ctx)
{
	const char *letters = "the quick brown fox jumps over it";
	u64 sum = steps[ctx[0] & 15] + weights[ctx[1] & 7] + bounds[ctx[2] & 3];
	return sum + (u8)letters[ctx[3] & 31];
}
