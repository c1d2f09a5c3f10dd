/* Runs sealing, opening, X25519 and signing with keys and secrets marked undefined, so that memcheck reports each branch and each address that
   depends on one. What goes out is marked defined again. */
#include <stdbool.h>
#include <stddef.h>
#include <stdint.h>
#include <stdio.h>
#include <string.h>
#include <valgrind/memcheck.h>

bool divrelca_seal(const uint8_t *key, size_t key_size, const uint8_t *nonce, size_t nonce_size, uint8_t *text, size_t size, uint8_t *tag, size_t tag_size);
bool divrelca_open(const uint8_t *key, size_t key_size, const uint8_t *nonce, size_t nonce_size, uint8_t *text, size_t size, uint8_t *tag, size_t tag_size);
void divrelca_x25519(const uint8_t *secret, size_t secret_size, const uint8_t *point, size_t point_size, uint8_t *shared, size_t shared_size);
void divrelca_sign(const uint8_t *seed, size_t seed_size, const uint8_t *message, size_t size, uint8_t *signature, size_t signature_size);

static void hide(void *at, size_t size) { VALGRIND_MAKE_MEM_UNDEFINED(at, size); }
static void show(void *at, size_t size) { VALGRIND_MAKE_MEM_DEFINED(at, size); }

/* How many reports there are since the last call. */
static unsigned reports(void)
{
    static unsigned before;
    unsigned now = VALGRIND_COUNT_ERRORS, more = now - before;
    before = now;
    return more;
}

static bool tell(const char *what)
{
    unsigned more = reports();
    printf("%s: %s\n", what, more ? "depends on a secret" : "no branch and no address depends on a secret");
    return more == 0;
}

static bool cipher(size_t key_size, size_t size)
{
    static uint8_t text[4096], again[4096];
    uint8_t key[32], nonce[12], tag[16], other[16];
    memset(key, 7, sizeof key);
    memset(nonce, 9, sizeof nonce);
    memset(text, 'a', size);
    hide(key, sizeof key);
    hide(text, size);
    bool made = divrelca_seal(key, key_size, nonce, sizeof nonce, text, size, tag, sizeof tag);
    show(text, size);
    show(tag, sizeof tag);
    memcpy(again, text, size);
    hide(again, size);
    bool opened = divrelca_open(key, key_size, nonce, sizeof nonce, again, size, other, sizeof other);
    show(again, size);
    show(other, sizeof other);
    char what[64];
    snprintf(what, sizeof what, "AES-%zu-GCM, %zu bytes sealed and opened", 8 * key_size, size);
    bool same = made && opened && memcmp(tag, other, sizeof tag) == 0 && again[0] == 'a' && again[size - 1] == 'a';
    if (!same)
        printf("%s: other bytes came back\n", what);
    return tell(what) && same;
}

int main(void)
{
    if (!RUNNING_ON_VALGRIND) {
        puts("this runs under valgrind");
        return 2;
    }
    bool good = true;
    size_t sizes[] = {20, 128, 500, 4096};
    for (size_t i = 0; i < sizeof sizes / sizeof *sizes; i++) {
        good &= cipher(16, sizes[i]);
        good &= cipher(32, sizes[i]);
    }
    uint8_t secret[32], point[32] = {9}, shared[32], message[100], signature[64];
    memset(secret, 0x5a, sizeof secret);
    memset(message, 3, sizeof message);
    hide(secret, sizeof secret);
    divrelca_x25519(secret, sizeof secret, point, sizeof point, shared, sizeof shared);
    show(shared, sizeof shared);
    good &= tell("X25519");
    divrelca_sign(secret, sizeof secret, message, sizeof message, signature, sizeof signature);
    show(signature, sizeof signature);
    good &= tell("Ed25519, a key made and a message signed");
    return good ? 0 : 1;
}
