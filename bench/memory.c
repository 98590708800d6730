/* memcpy and its kin for programs that have no C library, in steps of 16 bytes as an ordinary C library has them: a copy costs here
 * about what it costs elsewhere. Built with -fno-builtin, so that they are not compiled to calls of themselves. */
#include <stddef.h>
#include <stdint.h>
typedef uint8_t v16 __attribute__((vector_size(16), aligned(1)));
void *memcpy(void *restrict d, const void *restrict s, size_t n)
{
	uint8_t *p = d; const uint8_t *q = s;
	for (; n >= 64; n -= 64, p += 64, q += 64) {
		v16 a = *(const v16 *)q, b = *(const v16 *)(q + 16), c = *(const v16 *)(q + 32), e = *(const v16 *)(q + 48);
		*(v16 *)p = a; *(v16 *)(p + 16) = b; *(v16 *)(p + 32) = c; *(v16 *)(p + 48) = e;
	}
	for (; n >= 16; n -= 16, p += 16, q += 16) *(v16 *)p = *(const v16 *)q;
	for (; n; --n) *p++ = *q++;
	return d;
}
void *memmove(void *d, const void *s, size_t n)
{
	uint8_t *p = d; const uint8_t *q = s;
	if (p == q || n == 0) return d;
	if (p < q || p >= q + n) return memcpy(d, s, n);
	while (n--) p[n] = q[n];
	return d;
}
void *memset(void *d, int c, size_t n)
{
	uint8_t *p = d; v16 x = (v16){ 0 } + (uint8_t)c;
	for (; n >= 16; n -= 16, p += 16) *(v16 *)p = x;
	for (; n; --n) *p++ = (uint8_t)c;
	return d;
}
int memcmp(const void *a, const void *b, size_t n)
{
	const uint8_t *p = a, *q = b;
	for (; n; --n, ++p, ++q) if (*p != *q) return *p - *q;
	return 0;
}
