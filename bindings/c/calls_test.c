/* Calls in any order: two ends, and a program that makes calls by a seed, at the wrong time, twice, with answers to questions that nobody put, and with allocations that
 * are refused. What has to hold of each call whatever came before is checked. `calls_test COUNT FIRST` runs so many seeds from the first one.
 * All is done in a thread with as much stack as the header asks for. */
#include <pthread.h>

#include "session.h"

#define STACK (384 * 1024)

static uint64_t seed;
static uint32_t below(uint32_t bound) {
  seed ^= seed << 13, seed ^= seed >> 7, seed ^= seed << 17;
  return (uint32_t)(seed >> 33) % bound;
}
static bool once_in(uint32_t count) { return !below(count); }

static const char *const NAMES[] = {"me", "you", "session", "exec", "ssh-ed25519", "x-sign@example.org", ""};
static dv_bytes a_name(void) { return text(NAMES[below(7)]); }
static uint8_t noise[5000];
static dv_bytes some_bytes(void) {
  dv_bytes bytes = {noise, once_in(8) ? below(sizeof noise) : below(40)};
  for (size_t n = 0; n < bytes.len && n < 64; n++) noise[n] = (uint8_t)below(256);
  return bytes;
}
static dv_ask an_ask(void) {
  dv_ask ask = DV_ASK_INIT;
  ask.kind = below(22), ask.channel = below(3), ask.window = below(70000), ask.max_packet = once_in(2) ? 32768 : below(70000), ask.number = below(5000);
  ask.flag = once_in(2), ask.name = a_name(), ask.data = some_bytes();
  if (once_in(2)) ask.algorithm = a_name();
  if (ask.kind == DV_ASK_DISCONNECT && !once_in(20)) ask.kind = DV_ASK_SERVICE;
  return ask;
}

/* What waits at one end, in part, with a byte changed now and then. */
static void carries(bool to_server) {
  dv_end *from = to_server ? &client : &server, *to = to_server ? &server : &client;
  dv_bytes out = DV_BYTES_INIT, before = DV_BYTES_INIT;
  dv_output(from, &out);
  size_t len = once_in(3) ? below(64) : out.len, used = 0;
  if (len > out.len) len = out.len;
  uint8_t *copy = malloc(len ? len : 1);
  if (!copy) abort();
  memcpy(copy, out.at, len);
  if (len && once_in(400)) copy[below((uint32_t)len)] ^= 1;
  while (used < len) {
    size_t taken = 77;
    dv_output(to, &before);
    size_t waited = before.len;
    bool was_over = dv_is_over(to);
    int32_t code = dv_take(to, copy + used, len - used, &taken);
    dv_wanted wanted = DV_WANTED_INIT;
    dv_show_wanted(to, &wanted);
    CHECK(code == DV_DONE || code == DV_WANTED || code == DV_MEMORY || code == DV_OVER);
    CHECK(taken <= len - used && (code == DV_DONE || !taken) && (code != DV_OVER || was_over));
    dv_output(to, &before);
    if (code == DV_WANTED) CHECK(wanted.kind >= DV_WANTS_ADMISSION && wanted.kind <= DV_WANTS_HOST_SIGNATURE && before.len == waited && !dv_is_over(to));
    else CHECK(wanted.kind == DV_WANTS_NOTHING);
    if (code != DV_DONE) break;
    used += taken;
    dv_event event = DV_EVENT_INIT;
    dv_show_event(to, &event);
    if (event.kind == DV_EXTENSIONS) CHECK(event.number == 1);
    if (once_in(2)) dv_decline(to);
    if (event.kind == DV_REFUSED || event.kind == DV_DISCONNECTED) CHECK(dv_is_over(to));
  }
  dv_written(from, used);
  free(copy);
}

static void signs(dv_end *end) {
  uint8_t room[600];
  size_t len = 77;
  dv_bytes user = a_name(), algorithm = a_name(), key = some_bytes(), signature = some_bytes();
  memset(room, 9, sizeof room);
  int32_t code = dv_text_to_sign(end, user.at, user.len, algorithm.at, algorithm.len, key.at, key.len, room, below(sizeof room), &len);
  CHECK(code == DV_DONE || code == DV_NOT_YET || code == DV_TOO_LONG);
  CHECK(code == DV_DONE ? len == 81 + user.len + algorithm.len + key.len : len == 77 && room[0] == 9);
  code = dv_set_signature(end, user.at, user.len, algorithm.at, algorithm.len, key.at, key.len, signature.at, signature.len);
  CHECK(code == DV_DONE || code == DV_NOT_YET || code == DV_WRONG_SIDE || code == DV_BAD_SIGNATURE || code == DV_SIGNATURE_KNOWN || code == DV_MEMORY ||
        code == DV_OVER || code == DV_TOO_LONG);
  if (code == DV_DONE) {
    CHECK(end == &client && signature.len >= 1 && signature.len <= 4096);
    CHECK(dv_set_signature(end, user.at, user.len, algorithm.at, algorithm.len, key.at, key.len, signature.at, signature.len) != DV_DONE);
  }
}

static void calls(dv_end *end) {
  uint32_t channel = 77;
  size_t taken = 77;
  dv_ask ask = an_ask();
  dv_material material = fresh();
  dv_bytes bytes = DV_BYTES_INIT;
  bool was_over = dv_is_over(end);
  switch (below(14)) {
  case 0: case 1: case 2: {
    int32_t code = dv_ask_now(end, &ask, &channel);
    CHECK((code != DV_OVER || was_over) && (ask.kind == DV_ASK_OPEN && code == DV_DONE ? channel < 1024 : channel == 77));
    if (ask.kind == DV_ASK_LOGIN_KEY && end == &server) CHECK(code != DV_DONE);
    return;
  }
  case 3: dv_queue(end, &ask); return;
  case 4: dv_work(end, &channel); return;
  case 5: dv_feed(end, &material); return;
  case 6: case 7: {
    dv_wanted wanted = DV_WANTED_INIT;
    dv_show_wanted(end, &wanted);
    int32_t code = dv_answer(end, once_in(2));
    CHECK(code == DV_DONE || code == DV_NOTHING_WANTED || code == DV_MEMORY);
    if (wanted.kind == DV_WANTS_NOTHING) CHECK(code == DV_NOTHING_WANTED);
    if (code == DV_DONE) CHECK(dv_answer(end, true) == DV_NOTHING_WANTED);
    return;
  }
  case 8: {
    dv_user me = {text("you"), text("word"), DV_LOGIN_PASSWORD};
    if (end == &server) set_user(text("you"), &me, 1);
    return;
  }
  case 9: { int32_t code = dv_decide_later(end); CHECK(code == DV_DONE || code == DV_TOO_LATE || code == DV_MEMORY); return; }
  case 10: signs(end); return;
  case 11: { dv_bytes body = some_bytes(); dv_send(end, below(3), below(2), body.at, body.len, &taken); CHECK(taken <= body.len); return; }
  case 12: dv_consume(end, below(3), below(5000)); return;
  default:
    dv_sent(end, below(3), &bytes);
    dv_peer_version(end, &bytes);
    if (dv_session_id(end, &bytes)) CHECK(bytes.len == 32);
    dv_room(end, below(3));
  }
}

static void one(uint64_t of) {
  uint8_t host_seed[32] = {7}, user_seed[32] = {8}, host_key[32], padding[32] = {3};
  seed = of * 0x9E3779B97F4A7C15u + 1;
  pairs_fed = 0, left = -1;
  dv_public_key(host_seed, host_key);
  dv_server_settings of_server = DV_SERVER_SETTINGS_INIT;
  of_server.software = text("Server"), of_server.host_seed = (dv_bytes){host_seed, 32}, of_server.epoch_limit = 64;
  if (once_in(2)) of_server.user_algorithms = text("x-sign@example.org");
  dv_client_settings of_client = DV_CLIENT_SETTINGS_INIT;
  of_client.software = text("Client"), of_client.takes_extensions = once_in(2);
  if (once_in(2)) of_client.host_key = (dv_bytes){host_key, 32};
  if (once_in(2)) of_client.user_seed = (dv_bytes){user_seed, 32};
  dv_material first = fresh();
  CHECK(dv_server_new(&server, &of_server, &first, padding) == DV_DONE);
  first = fresh();
  CHECK(dv_client_new(&client, &of_client, &first, padding) == DV_DONE);
  if (!once_in(4)) CHECK(dv_decide_later(&server) == DV_DONE && dv_decide_later(&client) == DV_DONE);
  for (int n = 0; n < 300; n++) {
    left = once_in(30) ? (long)below(6) : -1;
    if (once_in(2)) carries(once_in(2));
    else calls(once_in(2) ? &server : &client);
    left = -1;
    /* so that some sessions come to a login */
    if (n == 40 || n == 60) {
      uint32_t channel;
      dv_ask ask = n == 40 ? dv_ask_on(DV_ASK_SERVICE, 0) : dv_ask_texts(once_in(2) ? DV_ASK_LOGIN_KEY : DV_ASK_LOGIN_PASSWORD, 0, text("me"), false, text("word"));
      dv_ask_now(&client, &ask, &channel);
    }
  }
  dv_free(client);
  dv_free(server);
  CHECK(held == 0);
}

static unsigned long most = 400, begin = 1;

static void *all(void *unused) {
  for (unsigned long n = 0; n < most; n++) {
    int before = bad;
    one(begin + n);
    if (bad != before) printf("with the seed %lu\n", begin + n);
  }
  return unused;
}

int main(int count, char **words) {
  pthread_attr_t small;
  pthread_t thread;
  if (count > 1) most = strtoul(words[1], 0, 10);
  if (count > 2) begin = strtoul(words[2], 0, 10);
  if (pthread_attr_init(&small) || pthread_attr_setstacksize(&small, STACK) || pthread_create(&thread, &small, all, 0) || pthread_join(thread, 0)) abort();
  printf(bad ? "%d checks fail\n" : "calls in any order pass\n", bad);
  return bad != 0;
}
