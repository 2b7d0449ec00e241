typedef unsigned long long u64; typedef unsigned int u32; typedef unsigned char u8;

struct { int *type, *key, *value; } counts __attribute__((section(".maps"), used));
const volatile u32 limit = 7;

u64 with_map(u8 *ctx)
{
	return (u64)&counts + ctx[0];
}

u64 with_scalar(u8 *ctx)
{
	return limit + ctx[0];
}

u64 with_string(u8 *ctx)
{
	static const char *const name = "a longer name than any register";
	return name[ctx[0] & 15];
}
