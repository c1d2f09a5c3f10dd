/* Ends whose program answers in its own time: what is asked and shown, that nothing changes before the answer, what an answer does, and that each question is
 * asked once. Then answers with each allocation refused in turn. */
#include "session.h"

static uint8_t host_key[32], user_key[32];
static uint32_t here; /* the channel at the client */

/* What was asked, in order, and what is answered to each: to all of them `says`. */
static uint32_t asked[8];
static size_t asks;
static bool says;

/* The key of 32 bytes goes over the wire as two strings: "ssh-ed25519", and the key (RFC 8709 section 4). */
static bool is_key(dv_bytes shown, const uint8_t key[32]) {
  return shown.len == 51 && !memcmp(shown.at, "\0\0\0\x0bssh-ed25519\0\0\0 ", 19) && !memcmp(shown.at + 19, key, 32);
}

static dv_wanted shown_by(bool at_server) {
  dv_wanted wanted = DV_WANTED_INIT;
  dv_show_wanted(at_server ? &server : &client, &wanted);
  return wanted;
}

static void looks_right(bool at_server, dv_wanted wanted) {
  switch (wanted.kind) {
  case DV_WANTS_ADMISSION: CHECK(at_server && is(wanted.user, "me") && !wanted.algorithm.len && !wanted.data.len); return;
  case DV_WANTS_PASSWORD: CHECK(at_server && is(wanted.user, "me") && !wanted.algorithm.len && (is(wanted.data, "word") || is(wanted.data, "not it"))); return;
  case DV_WANTS_KEY: CHECK(at_server && is(wanted.user, "me") && is(wanted.algorithm, "ssh-ed25519") && is_key(wanted.data, user_key)); return;
  case DV_WANTS_HOST_KEY: CHECK(!at_server && !wanted.user.len && is(wanted.algorithm, "ssh-ed25519") && is_key(wanted.data, host_key)); return;
  default: CHECK(false);
  }
}

static int32_t answers(bool at_server) {
  dv_end *end = at_server ? &server : &client;
  dv_wanted wanted = shown_by(at_server);
  looks_right(at_server, wanted);
  if (asks < 8) asked[asks] = wanted.kind;
  asks++;
  bool accepts = wanted.kind == DV_WANTS_PASSWORD ? is(wanted.data, "word") : says && wanted.kind != DV_WANTS_ADMISSION;
  int32_t code = dv_answer(end, accepts);
  if (code != DV_DONE) return code;
  CHECK(shown_by(at_server).kind == DV_WANTS_NOTHING && dv_answer(end, true) == DV_NOTHING_WANTED);
  return DV_DONE;
}

/* A server without users and a client without a key of its host, which both ask. */
static void begin(const dv_user *users, size_t count) {
  uint8_t host_seed[32] = {7}, user_seed[32] = {8}, padding[32] = {3};
  dv_public_key(host_seed, host_key);
  dv_public_key(user_seed, user_key);
  memset(told, 0, sizeof told);
  stopped = 0, pairs_fed = 0, asks = 0, found_len = 0, says = true, decide = answers;
  dv_server_settings of_server = DV_SERVER_SETTINGS_INIT;
  of_server.software = text("Server"), of_server.host_seed = (dv_bytes){host_seed, 32}, of_server.users = users, of_server.users_len = count;
  dv_client_settings of_client = DV_CLIENT_SETTINGS_INIT;
  of_client.software = text("Client"), of_client.user_seed = (dv_bytes){user_seed, 32};
  dv_material first = fresh();
  CHECK(dv_server_new(&server, &of_server, &first, padding) == DV_DONE);
  first = fresh();
  CHECK(dv_client_new(&client, &of_client, &first, padding) == DV_DONE);
  CHECK(dv_decide_later(&server) == DV_DONE && dv_decide_later(&client) == DV_DONE);
}
static void finish(void) {
  decide = 0;
  dv_free(client);
  dv_free(server);
  CHECK(held == 0);
}
static bool login(uint32_t kind, const char *word) {
  uint32_t channel;
  return ask_client(dv_ask_texts(kind, 0, text("me"), false, text(word)), &channel);
}
static bool begin_login(void) {
  uint32_t channel;
  return go() && ask_client(dv_ask_on(DV_ASK_SERVICE, 0), &channel);
}

/* Each question is asked once, and the answer counts from then on: the signed request asks no more than its probe did. */
static void by_a_key(void) {
  begin(dv_no_users, 0);
  CHECK(begin_login() && asks == 1 && asked[0] == DV_WANTS_HOST_KEY && told[0][DV_COMPLETED] == 1);
  CHECK(dv_decide_later(&server) == DV_TOO_LATE && dv_decide_later(&client) == DV_TOO_LATE);
  CHECK(login(DV_ASK_LOGIN_NONE, "") && asks == 2 && asked[1] == DV_WANTS_ADMISSION && told[0][DV_FAILED] == 1);
  CHECK(login(DV_ASK_LOGIN_PROBE, "") && asks == 3 && asked[2] == DV_WANTS_KEY && told[0][DV_KEY_OK] == 1);
  CHECK(login(DV_ASK_LOGIN_KEY, "") && asks == 3 && told[1][DV_ACCEPTED] == 1 && told[0][DV_AUTHENTICATED] == 1);
  CHECK(let_in_by[1] == DV_SHOWN_KEY && let_in_key == 51);
  /* the next exchange of keys asks nothing: the host is known now */
  CHECK(ask_server(dv_ask_on(DV_ASK_REKEY, 0)) && told[0][DV_COMPLETED] == 2 && asks == 3 && !stopped);
  CHECK(ask_client(dv_ask_window(DV_ASK_OPEN, 0, text("session"), 1, 1), &here) && told[1][DV_OPENED] == 1);
  finish();
}

/* A wrong password is refused; the same one again is refused without a question; another one is another question. */
static void by_a_password(void) {
  begin(dv_no_users, 0);
  CHECK(begin_login() && login(DV_ASK_LOGIN_PASSWORD, "not it") && asks == 2 && told[0][DV_FAILED] == 1 && !told[1][DV_ACCEPTED]);
  CHECK(login(DV_ASK_LOGIN_PASSWORD, "not it") && asks == 2 && told[0][DV_FAILED] == 2 && !told[1][DV_ACCEPTED]);
  CHECK(login(DV_ASK_LOGIN_PASSWORD, "word") && asks == 3 && told[1][DV_ACCEPTED] == 1 && let_in_by[1] == DV_SHOWN_PASSWORD && !stopped);
  finish();
}

/* No to the host: the client refuses it, as one whose key is another (the number of BadHost is 12). */
static void to_no_host(void) {
  begin(dv_no_users, 0);
  says = false;
  CHECK(!go() && asks == 1 && told[0][DV_REFUSED] == 1 && dv_is_over(&client) && !told[0][DV_COMPLETED]);
  finish();
}

/* Without the call a client without keys trusts no host, and a server without users lets nobody in. */
static void without_the_call(void) {
  uint8_t padding[32] = {3};
  begin(dv_no_users, 0);
  dv_free(client);
  dv_client_settings of_client = DV_CLIENT_SETTINGS_INIT;
  of_client.software = text("Client");
  dv_material first = fresh();
  CHECK(dv_client_new(&client, &of_client, &first, padding) == DV_DONE);
  CHECK(!go() && asks == 0 && told[0][DV_REFUSED] == 1 && dv_is_over(&client));
  finish();
}

/* Of a user with an entry nothing is asked. */
static void with_an_entry(void) {
  dv_user me = {text("me"), text("word"), DV_LOGIN_PASSWORD};
  begin(&me, 1);
  CHECK(begin_login() && login(DV_ASK_LOGIN_PASSWORD, "not it") && asks == 1 && told[0][DV_FAILED] == 1);
  CHECK(login(DV_ASK_LOGIN_PASSWORD, "word") && asks == 1 && told[1][DV_ACCEPTED] == 1 && !stopped);
  finish();
}

/* Nothing is used and nothing changes while an answer is wanted, however often the bytes are given; then they are taken. */
static int times;
static int32_t waits(bool at_server) {
  dv_end *end = at_server ? &server : &client;
  dv_bytes out = DV_BYTES_INIT;
  looks_right(at_server, shown_by(at_server));
  dv_output(end, &out);
  CHECK(!out.len && !dv_queued(end) && !dv_is_over(end));
  return ++times % 4 ? DV_DONE : answers(at_server);
}
static void held_back(void) {
  begin(dv_no_users, 0);
  decide = waits, times = 0;
  CHECK(begin_login() && login(DV_ASK_LOGIN_PASSWORD, "word") && told[1][DV_ACCEPTED] == 1 && asks == 2 && times == 8);
  finish();
}

/* The user is set while the question is open: then there is no question any more. */
static int32_t sets(bool at_server) {
  if (!at_server) return answers(false);
  dv_user me = {text("me"), text("word"), DV_LOGIN_PASSWORD};
  CHECK(set_user(text("me"), &me, 1) == DV_DONE && dv_answer(&server, false) == DV_NOTHING_WANTED);
  asks++;
  return DV_DONE;
}
static void set_meanwhile(void) {
  begin(dv_no_users, 0);
  decide = sets;
  CHECK(begin_login() && login(DV_ASK_LOGIN_PASSWORD, "word") && asks == 2 && told[1][DV_ACCEPTED] == 1 && !stopped);
  finish();
}

/* An end that is never answered can be freed, and one that is over wants no answer. */
static int32_t never(bool at_server) {
  uint32_t channel;
  dv_ask bye = dv_ask_texts(DV_ASK_DISCONNECT, 0, none, false, text("bye"));
  dv_end *end = at_server ? &server : &client;
  CHECK(dv_ask_now(end, &bye, &channel) == DV_DONE && dv_is_over(end) && dv_answer(end, true) == DV_NOTHING_WANTED);
  return DV_OVER;
}
static void never_answered(void) {
  begin(dv_no_users, 0);
  decide = never;
  CHECK(!go() && stopped == DV_OVER);
  finish();
  begin(dv_no_users, 0);
  decide = 0;
  CHECK(!go() && stopped == DV_WANTED && shown_by(false).kind == DV_WANTS_HOST_KEY);
  finish();
}

/* Each allocation of an answer is refused in turn: nothing is said, the end goes on, and the same is wanted again. */
static int32_t refused_answers(bool at_server) {
  dv_end *end = at_server ? &server : &client;
  int32_t code;
  long n = 0;
  for (;; n++) {
    dv_wanted wanted = shown_by(at_server);
    looks_right(at_server, wanted);
    left = n;
    code = dv_answer(end, true);
    bool was_refused = left == -2;
    left = -1;
    if (code != DV_MEMORY || !was_refused) break;
    CHECK(!dv_is_over(end));
  }
  CHECK(n > 0 && code == DV_DONE);
  asks++;
  return code;
}
static void without_memory(void) {
  begin(dv_no_users, 0);
  decide = refused_answers;
  CHECK(begin_login() && login(DV_ASK_LOGIN_KEY, "") && asks == 2 && told[1][DV_ACCEPTED] == 1 && !stopped);
  finish();
  begin(dv_no_users, 0);
  dv_free(server);
  uint8_t host_seed[32] = {7}, padding[32] = {3};
  dv_server_settings of_server = DV_SERVER_SETTINGS_INIT;
  of_server.software = text("Server"), of_server.host_seed = (dv_bytes){host_seed, 32};
  dv_material first = fresh();
  CHECK(dv_server_new(&server, &of_server, &first, padding) == DV_DONE);
  left = 0;
  CHECK(dv_decide_later(&server) == DV_MEMORY && left == -2);
  left = -1;
  CHECK(dv_decide_later(&server) == DV_DONE && begin_login() && login(DV_ASK_LOGIN_PASSWORD, "word") && told[1][DV_ACCEPTED] == 1);
  finish();
}

int main(void) {
  by_a_key();
  by_a_password();
  to_no_host();
  without_the_call();
  with_an_entry();
  held_back();
  set_meanwhile();
  never_answered();
  without_memory();
  printf(bad ? "%d checks fail\n" : "the test of decisions passes\n", bad);
  return bad != 0;
}
