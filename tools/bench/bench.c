/*
 * Times thimmorel_digest and other implementations of BLAKE2s, and thimmorel_sha256 and others of
 * SHA-256, in turn, on the same bytes. Prints, for each size, the time of the other divided by ours:
 * 1.07 says that ours is 7 percent faster. A time alone says nothing about another machine.
 *
 * Another table compares our BLAKE2s by itself, as it is now, with a form that copies each block and,
 * where `run` is given a commit, with the version of that commit.
 */

#define _POSIX_C_SOURCE 200809L

#include "reference.h"

#include <blake2.h>
#include <openssl/crypto.h>
#include <openssl/evp.h>
#include <stdio.h>
#include <stdlib.h>
#include <string.h>
#include <thimmorel.h>
#include <time.h>

enum { LARGEST = 2097152 };

static const size_t sizes[] = { 0, 1, 64, 65, 128, 512, 1024, LARGEST };

enum { SIZES = sizeof sizes / sizeof sizes[0] };

/* A batch is so long that the clock's own cost does not count. Each size is visited in several
   passes, so that a disturbance of some seconds does not spoil one size alone. */
static const double batch_seconds = 0.001;
static const double visit_seconds = 0.6;
enum { PASSES = 10 };

typedef void digest_function(const uint8_t *bytes, uint64_t length, uint8_t digest[32]);

struct implementation {
	const char *name;
	digest_function *digest;
};

static uint8_t message[LARGEST];

static void fail(const char *what)
{
	fprintf(stderr, "bench: %s\n", what);
	exit(EXIT_FAILURE);
}

/* OpenSSL's algorithms are fetched once and its context is used again, as its manual advises. */
static EVP_MD *openssl_blake2s, *openssl_sha256;
static EVP_MD_CTX *openssl_context;

static void openssl_begin(void)
{
	openssl_blake2s = EVP_MD_fetch(NULL, "BLAKE2S-256", NULL);
	openssl_sha256 = EVP_MD_fetch(NULL, "SHA2-256", NULL);
	openssl_context = EVP_MD_CTX_new();
	if (openssl_blake2s == NULL || openssl_sha256 == NULL || openssl_context == NULL)
		fail("OpenSSL has no BLAKE2s or no SHA-256");
}

static void openssl_end(void)
{
	EVP_MD_CTX_free(openssl_context);
	EVP_MD_free(openssl_sha256);
	EVP_MD_free(openssl_blake2s);
}

static void digest_openssl(const EVP_MD *algorithm, const uint8_t *bytes, uint64_t length,
                           uint8_t digest[32])
{
	if (!EVP_DigestInit_ex2(openssl_context, algorithm, NULL)
	    || !EVP_DigestUpdate(openssl_context, bytes, length)
	    || !EVP_DigestFinal_ex(openssl_context, digest, NULL))
		fail("OpenSSL failed");
}

static void blake2s_openssl(const uint8_t *bytes, uint64_t length, uint8_t digest[32])
{
	digest_openssl(openssl_blake2s, bytes, length, digest);
}

static void sha256_openssl(const uint8_t *bytes, uint64_t length, uint8_t digest[32])
{
	digest_openssl(openssl_sha256, bytes, length, digest);
}

static void blake2s_libb2(const uint8_t *bytes, uint64_t length, uint8_t digest[32])
{
	if (blake2s(digest, bytes, NULL, 32, length, 0) != 0)
		fail("libb2 failed");
}

/* Our BLAKE2s by itself, each form built in the same way: see `build_alone` in `run`. */
digest_function digest_now, digest_before, digest_copying;

/* Of each digest ours is the first. */
enum {
	BLAKE2S,
	BLAKE2S_OPENSSL,
	BLAKE2S_LIBB2,
	BLAKE2S_GCC,
#ifdef WITH_CLANG
	BLAKE2S_CLANG,
#endif
	BLAKE2S_END,
	NOW = BLAKE2S_END,
#ifdef WITH_BEFORE
	BEFORE,
#endif
	COPYING,
	FORMS_END,
	SHA256 = FORMS_END,
	SHA256_OPENSSL,
	SHA256_GCC,
#ifdef WITH_CLANG
	SHA256_CLANG,
#endif
	SHA256_END,
	COUNT = SHA256_END
};

static const struct implementation implementations[COUNT] = {
	[BLAKE2S] = { "Thimmorel", thimmorel_digest },
	[BLAKE2S_OPENSSL] = { "OpenSSL", blake2s_openssl },
	[BLAKE2S_LIBB2] = { "libb2", blake2s_libb2 },
	[BLAKE2S_GCC] = { "gcc -O3", reference_gcc },
#ifdef WITH_CLANG
	[BLAKE2S_CLANG] = { "clang -O3", reference_clang },
#endif
	[NOW] = { "now", digest_now },
#ifdef WITH_BEFORE
	[BEFORE] = { "before", digest_before },
#endif
	[COPYING] = { "copying", digest_copying },
	[SHA256] = { "Thimmorel", thimmorel_sha256 },
	[SHA256_OPENSSL] = { "OpenSSL", sha256_openssl },
	[SHA256_GCC] = { "gcc -O3", reference_sha256_gcc },
#ifdef WITH_CLANG
	[SHA256_CLANG] = { "clang -O3", reference_sha256_clang },
#endif
};

/* All from first up to end have the same digest. */
static void expect_agreement(int first, int end, size_t size)
{
	uint8_t ours[32], theirs[32];
	implementations[first].digest(message, size, ours);
	for (int i = first + 1; i < end; i++) {
		implementations[i].digest(message, size, theirs);
		if (memcmp(ours, theirs, sizeof ours) != 0)
			fail("the digests differ");
	}
}

static double now(void)
{
	struct timespec time;
	clock_gettime(CLOCK_MONOTONIC, &time);
	return (double)time.tv_sec + (double)time.tv_nsec * 1e-9;
}

static double batch_time(digest_function *digest, size_t size, long calls)
{
	uint8_t out[32];
	double start = now();
	for (long i = 0; i < calls; i++)
		digest(message, size, out);
	return now() - start;
}

/* How many calls make a batch: doubled until our BLAKE2s takes long enough. */
static long calls_in_batch(size_t size)
{
	long calls = 1;
	while (batch_time(implementations[BLAKE2S].digest, size, calls) < batch_seconds)
		calls *= 2;
	return calls;
}

/* A disturbance makes a batch slower and never faster, so the best batch is the least disturbed. */
static void run_round(size_t size, long calls, double best[COUNT])
{
	for (int i = 0; i < COUNT; i++) {
		double time = batch_time(implementations[i].digest, size, calls);
		if (best[i] == 0 || time < best[i])
			best[i] = time;
	}
}

static void visit(size_t size, long calls, double best[COUNT])
{
	double end = now() + visit_seconds;
	while (now() < end)
		run_round(size, calls, best);
}

/* Those from ours up to end, without ours. */
static void print_others(const char *what, int ours, int end, double best[SIZES][COUNT])
{
	printf("\n%s: their time divided by ours; above 1, ours is faster.\n%9s", what, "bytes");
	for (int i = ours + 1; i < end; i++)
		printf("%11s", implementations[i].name);
	printf("\n");
	for (int s = 0; s < SIZES; s++) {
		printf("%9zu", sizes[s]);
		for (int i = ours + 1; i < end; i++)
			printf("%11.2f", best[s][i] / best[s][ours]);
		printf("\n");
	}
}

/* The time of a call in nanoseconds, and divided by that of the present form. */
static void print_forms(double best[SIZES][COUNT], const long calls[SIZES])
{
	printf("\nOur BLAKE2s by itself: nanoseconds, and divided by those of now.\n%9s", "bytes");
	for (int i = NOW; i < FORMS_END; i++)
		printf("%11s", implementations[i].name);
	for (int i = NOW + 1; i < FORMS_END; i++)
		printf("%11s", implementations[i].name);
	printf("\n");
	for (int s = 0; s < SIZES; s++) {
		printf("%9zu", sizes[s]);
		for (int i = NOW; i < FORMS_END; i++)
			printf("%11.0f", best[s][i] / (double)calls[s] * 1e9);
		for (int i = NOW + 1; i < FORMS_END; i++)
			printf("%11.2f", best[s][i] / best[s][NOW]);
		printf("\n");
	}
}

int main(void)
{
	static double best[SIZES][COUNT];
	long calls[SIZES];

	for (size_t i = 0; i < LARGEST; i++)
		message[i] = (uint8_t)(i * 2654435761u >> 24);
	openssl_begin();
	for (int s = 0; s < SIZES; s++) {
		expect_agreement(BLAKE2S, FORMS_END, sizes[s]);
		expect_agreement(SHA256, SHA256_END, sizes[s]);
		calls[s] = calls_in_batch(sizes[s]);
	}
	for (int pass = 0; pass < PASSES; pass++)
		for (int s = 0; s < SIZES; s++)
			visit(sizes[s], calls[s], best[s]);
	print_others("BLAKE2s", BLAKE2S, BLAKE2S_END, best);
	print_forms(best, calls);
	print_others("SHA-256", SHA256, SHA256_END, best);
	printf("What OpenSSL found of the processor, and what was masked: %s\n",
	       OPENSSL_info(OPENSSL_INFO_CPU_SETTINGS));
	openssl_end();
	return EXIT_SUCCESS;
}
