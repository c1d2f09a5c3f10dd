/* What divrelca_requests.h builds is read back the same. Each cut of it, each byte too many and each change of one byte is refused, or is
 * what it is read as. No byte outside a buffer is touched: each buffer is just as long as it is said to be. It wants no library. */
#include "checks.h"
#include "divrelca_requests.h"

/* Reads one kind, and builds what was read; `is_read` says whether it was. What is not read leaves all as it was. */
typedef size_t (*again)(dv_bytes from, uint8_t *to, size_t size, bool *is_read);

static const uint8_t untouched[1] = {0};
static bool is_untouched(dv_bytes it) { return it.at == untouched && it.len == 77; }
#define UNTOUCHED {untouched, 77}

static size_t string_again(dv_bytes from, uint8_t *to, size_t size, bool *is_read) {
  dv_bytes text = UNTOUCHED;
  *is_read = dv_read_string(from, &text);
  CHECK(*is_read || is_untouched(text));
  return *is_read ? dv_build_string(to, size, text) : 0;
}
static size_t number_again(dv_bytes from, uint8_t *to, size_t size, bool *is_read) {
  uint32_t number = 77;
  *is_read = dv_read_number(from, &number);
  CHECK(*is_read || number == 77);
  return *is_read ? dv_build_number(to, size, number) : 0;
}
static size_t env_again(dv_bytes from, uint8_t *to, size_t size, bool *is_read) {
  dv_bytes name = UNTOUCHED, value = UNTOUCHED;
  *is_read = dv_read_env(from, &name, &value);
  CHECK(*is_read || (is_untouched(name) && is_untouched(value)));
  return *is_read ? dv_build_env(to, size, name, value) : 0;
}
static size_t window_change_again(dv_bytes from, uint8_t *to, size_t size, bool *is_read) {
  dv_size window = {77, 77, 77, 77};
  *is_read = dv_read_window_change(from, &window);
  CHECK(*is_read || (window.columns == 77 && window.rows == 77 && window.width == 77 && window.height == 77));
  return *is_read ? dv_build_window_change(to, size, window) : 0;
}
static size_t pty_again(dv_bytes from, uint8_t *to, size_t size, bool *is_read) {
  dv_bytes term = UNTOUCHED, modes = UNTOUCHED;
  dv_size window = {77, 77, 77, 77};
  *is_read = dv_read_pty(from, &term, &window, &modes);
  CHECK(*is_read || (is_untouched(term) && is_untouched(modes) && window.columns == 77 && window.height == 77));
  return *is_read ? dv_build_pty(to, size, term, window, modes) : 0;
}
static size_t exit_signal_again(dv_bytes from, uint8_t *to, size_t size, bool *is_read) {
  dv_exit_signal signal = {UNTOUCHED, true, UNTOUCHED, UNTOUCHED};
  *is_read = dv_read_exit_signal(from, &signal);
  CHECK(*is_read || (is_untouched(signal.name) && is_untouched(signal.message) && is_untouched(signal.language)));
  return *is_read ? dv_build_exit_signal(to, size, &signal) : 0;
}
static size_t listen_again(dv_bytes from, uint8_t *to, size_t size, bool *is_read) {
  dv_bytes address = UNTOUCHED;
  uint32_t port = 77;
  *is_read = dv_read_listen(from, &address, &port);
  CHECK(*is_read || (is_untouched(address) && port == 77));
  return *is_read ? dv_build_listen(to, size, address, port) : 0;
}
static size_t connection_again(dv_bytes from, uint8_t *to, size_t size, bool *is_read) {
  dv_connection connection = {UNTOUCHED, 77, UNTOUCHED, 77};
  *is_read = dv_read_connection(from, &connection);
  CHECK(*is_read || (is_untouched(connection.host) && connection.port == 77));
  CHECK(*is_read || (is_untouched(connection.origin) && connection.origin_port == 77));
  return *is_read ? dv_build_connection(to, size, &connection) : 0;
}

/* A copy in a block of just its length, so that a byte before or behind it is seen to be touched. */
static uint8_t *block(const uint8_t *bytes, size_t len) {
  uint8_t *copy = malloc(len ? len : 1);
  if (!copy) exit(2);
  memcpy(copy, bytes, len);
  return copy;
}
/* What comes of bytes that may be malformed: whether they are read. What is read is built as the same bytes; `flag` is the place of a
 * boolean, which is built as 0 or 1. */
static bool comes_again(again kind, const uint8_t *bytes, size_t len, size_t flag) {
  uint8_t *copy = block(bytes, len), *room = block(bytes, len);
  bool is_read;
  size_t built = kind(dv_built(copy, len), room, len, &is_read);
  if (is_read && flag < len) copy[flag] = copy[flag] != 0;
  if (is_read) CHECK(built == len && !memcmp(copy, room, len));
  free(copy), free(room);
  return is_read;
}
/* What was built is just these bytes; it is read again, and nothing else is. */
static void is_strict(again kind, const uint8_t *bytes, size_t len, size_t flag) {
  uint8_t *changed = block(bytes, len + 1);
  bool is_read;
  for (size_t cut = 0; cut < len; cut++) CHECK(!comes_again(kind, bytes, cut, flag));
  CHECK(comes_again(kind, bytes, len, flag));
  for (size_t size = 0; size < len; size++) {
    uint8_t *small = block(bytes, size);
    CHECK(kind(dv_built(bytes, len), small, size, &is_read) == 0 && is_read);
    free(small);
  }
  for (unsigned value = 0; value < 256; value++) {
    changed[len] = (uint8_t)value;
    CHECK(!comes_again(kind, changed, len + 1, flag));
  }
  for (size_t at = 0; at < len; at++) {
    for (unsigned value = 0; value < 256; value++) changed[at] = (uint8_t)value, comes_again(kind, changed, len, flag);
    changed[at] = bytes[at];
  }
  free(changed);
}

static uint8_t room[300];
/* A literal has a 0 behind it, which gives is_strict its byte too many. */
#define BUILDS(call, literal, kind, flag) \
  do { \
    size_t len = sizeof literal - 1; \
    CHECK((call) == len && !memcmp(room, literal, len)); \
    is_strict(kind, (const uint8_t *)literal, len, flag); \
  } while (0)

static void kinds(void) {
  const dv_bytes none = DV_BYTES_INIT;
  const dv_size window = {80, 24, 640, 0x01020304};
  const dv_exit_signal killed = {dv_words("KILL"), true, dv_words("gone"), dv_words("en")};
  const dv_connection connection = {dv_words("a.org"), 443, dv_words("::1"), 65535};
  BUILDS(dv_build_string(room, sizeof room, dv_words("uname")), "\0\0\0\5uname", string_again, 99);
  BUILDS(dv_build_string(room, sizeof room, none), "\0\0\0\0", string_again, 99);
  BUILDS(dv_build_number(room, sizeof room, 0x80ff0001), "\x80\xff\0\1", number_again, 99);
  BUILDS(dv_build_env(room, sizeof room, dv_words("LANG"), dv_words("C")), "\0\0\0\4LANG\0\0\0\1C", env_again, 99);
  BUILDS(dv_build_window_change(room, sizeof room, window), "\0\0\0\x50\0\0\0\x18\0\0\2\x80\1\2\3\4", window_change_again, 99);
  BUILDS(dv_build_pty(room, sizeof room, dv_words("vt100"), window, dv_built((const uint8_t *)"\1\0\0\0\3\0", 6)),
         "\0\0\0\5vt100\0\0\0\x50\0\0\0\x18\0\0\2\x80\1\2\3\4\0\0\0\6\1\0\0\0\3\0", pty_again, 99);
  BUILDS(dv_build_exit_signal(room, sizeof room, &killed), "\0\0\0\4KILL\1\0\0\0\4gone\0\0\0\2en", exit_signal_again, 8);
  BUILDS(dv_build_listen(room, sizeof room, dv_words("127.0.0.1"), 0), "\0\0\0\x09" "127.0.0.1\0\0\0\0", listen_again, 99);
  BUILDS(dv_build_connection(room, sizeof room, &connection), "\0\0\0\5a.org\0\0\1\xbb\0\0\0\3::1\0\0\xff\xff", connection_again, 99);
}

/* A length that no buffer has, and ports that no address has. */
static void bounds(void) {
  dv_bytes found = DV_BYTES_INIT;
  uint32_t port = 0;
  dv_connection connection = {dv_words("a"), 65536, dv_words("b"), 1};
  CHECK(!dv_read_string(dv_built((const uint8_t *)"\xff\xff\xff\xff" "abc", 7), &found) && !found.len);
  CHECK(dv_build_connection(room, sizeof room, &connection) == 0);
  connection.port = 1, connection.origin_port = 65536;
  CHECK(dv_build_connection(room, sizeof room, &connection) == 0);
  CHECK(dv_build_listen(room, sizeof room, dv_words(""), 65536) == 0);
  CHECK(!dv_read_listen(dv_built((const uint8_t *)"\0\0\0\0\0\1\0\0", 8), &found, &port) && !port);
  CHECK(dv_read_listen(dv_built((const uint8_t *)"\0\0\0\0\0\0\xff\xff", 8), &found, &port) && port == 65535 && !found.len);
  if (sizeof(size_t) > 4) {
    found.len = (size_t)UINT32_MAX + 1;
    CHECK(dv_build_string(room, SIZE_MAX, found) == 0);
  }
}

static void extensions(void) {
  static const uint8_t two[] = "\0\0\0\1a\0\0\0\2xy" "\0\0\0\0\0\0\0\1z";
  for (size_t len = 0; len < sizeof two; len++) {
    uint8_t *at = malloc(len ? len : 1);
    CHECK(at);
    if (!at) return;
    memcpy(at, two, len);
    dv_bytes rest = dv_built(at, len), name = UNTOUCHED, value = UNTOUCHED;
    bool has_one = dv_read_extension(&rest, &name, &value);
    CHECK(has_one == (len >= 11));
    CHECK(has_one ? dv_is(name, "a") && dv_is(value, "xy") && rest.len == len - 11 : is_untouched(name) && is_untouched(value));
    bool has_two = has_one && dv_read_extension(&rest, &name, &value);
    CHECK(has_two == (len == sizeof two - 1));
    CHECK(!has_two || (!name.len && dv_is(value, "z") && !rest.len && !dv_read_extension(&rest, &name, &value)));
    free(at);
  }
}

static void texts(void) {
  char to[12];
  CHECK(dv_is(dv_words("exec"), "exec") && !dv_is(dv_words("exec"), "exe") && !dv_is(dv_words("exe"), "exec"));
  CHECK(dv_copy_text(dv_words("eleven byte"), to, sizeof to) && !strcmp(to, "eleven byte"));
  CHECK(!dv_copy_text(dv_words("twelve bytes"), to, sizeof to) && !*to);
  CHECK(!dv_copy_text(dv_built((const uint8_t *)"a\0b", 3), to, sizeof to) && !*to);
  CHECK(dv_copy_text(dv_words(""), to, 1) && !*to && !dv_copy_text(dv_words("a"), to, 1));
  CHECK(!strcmp(dv_escape(dv_words("a\x1b[\\\x7f"), to, sizeof to), "a\\x1b[\\x5c"));
  CHECK(!strcmp(dv_escape(dv_words("0123456789\n"), to, sizeof to), "0123456789"));
  CHECK(!strcmp(dv_escape(dv_words("0123456789ab"), to, sizeof to), "0123456789a"));
  CHECK(!strcmp(dv_escape(dv_words("\xff\xc3\xa4"), to, sizeof to), "\\xff\\xc3"));
  CHECK(!*dv_escape(dv_words("a"), to, 1));
  for (unsigned byte = 0; byte < 256; byte++) {
    const uint8_t it = (uint8_t)byte;
    for (const char *at = dv_escape(dv_built(&it, 1), to, sizeof to); *at; at++) CHECK(*at >= 32 && *at < 127);
    CHECK(*to);
  }
}

int main(void) {
  kinds();
  bounds();
  extensions();
  texts();
  printf(bad ? "%d checks fail\n" : "what requests hold is built and read\n", bad);
  return bad != 0;
}
