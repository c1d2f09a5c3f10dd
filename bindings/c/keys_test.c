/* Keys that the library does not know: the text that a login signs, signatures that the program sets, and those that a server asks its program about. The algorithm
 * is made up, and its signature is "signed" and the last bytes of the text. Then each allocation of it is refused in turn. */
#include "session.h"

static const char *const KEY = "a key of another kind";
static dv_bytes name, key;
/* What is answered to a question on a key, and to one on a signature; what was asked, in order. */
static bool says_key, says_signature;
static uint32_t asked[16];
static size_t asks;
/* The text of the login that is under way, as the client has it. */
static uint8_t signed_text[DV_MOST_SIGNED];
static size_t signed_len;

static dv_bytes signature_of(const uint8_t *at, size_t len, uint8_t room[24]) {
  memcpy(room, "signed", 6);
  memcpy(room + 6, at + len - 18, 18);
  return (dv_bytes){room, 24};
}
static int32_t text_of(dv_end *end, const char *user, uint8_t *to, size_t room, size_t *len) {
  return dv_text_to_sign(end, text(user).at, strlen(user), name.at, name.len, key.at, key.len, to, room, len);
}
static int32_t set_signature(dv_end *end, const char *user, dv_bytes signature) {
  return dv_set_signature(end, text(user).at, strlen(user), name.at, name.len, key.at, key.len, signature.at, signature.len);
}
static int32_t sign(const char *user) {
  uint8_t room[24];
  int32_t code = text_of(&client, user, signed_text, sizeof signed_text, &signed_len);
  return code == DV_DONE ? set_signature(&client, user, signature_of(signed_text, signed_len, room)) : code;
}

static int32_t answers(bool at_server) {
  dv_end *end = at_server ? &server : &client;
  dv_wanted wanted = DV_WANTED_INIT;
  dv_show_wanted(end, &wanted);
  if (asks < 16) asked[asks] = wanted.kind;
  asks++;
  CHECK(!wanted.hash.len);
  if (wanted.kind == DV_WANTS_SIGNATURE) {
    uint8_t ours[DV_MOST_SIGNED], room[24], user[8] = {0};
    size_t len = 0;
    dv_bytes shown = signature_of(signed_text, signed_len, room);
    CHECK(at_server && wanted.user.len < 8 && is(wanted.algorithm, "x-sign@example.org") && is(wanted.data, KEY));
    CHECK(wanted.signature.len == shown.len && !memcmp(wanted.signature.at, shown.at, shown.len));
    memcpy(user, wanted.user.at, wanted.user.len);
    CHECK(text_of(&server, (const char *)user, ours, sizeof ours, &len) == DV_DONE && len == signed_len && !memcmp(ours, signed_text, len));
    return dv_answer(end, says_signature);
  }
  CHECK(!wanted.signature.len);
  if (wanted.kind == DV_WANTS_KEY) CHECK(is(wanted.data, KEY) && is(wanted.algorithm, "x-sign@example.org"));
  return dv_answer(end, wanted.kind == DV_WANTS_HOST_KEY || (wanted.kind == DV_WANTS_KEY && says_key));
}

static void begin(bool key_is, bool signature_is) {
  uint8_t host_seed[32] = {7}, user_seed[32] = {8}, padding[32] = {3};
  memset(told, 0, sizeof told);
  stopped = 0, pairs_fed = 0, asks = 0, found_len = 0, decide = answers, says_key = key_is, says_signature = signature_is;
  name = text("x-sign@example.org"), key = text(KEY);
  dv_server_settings of_server = DV_SERVER_SETTINGS_INIT;
  of_server.software = text("Server"), of_server.host_seed = (dv_bytes){host_seed, 32};
  of_server.user_algorithms = text("ssh-ed25519,x-sign@example.org");
  dv_client_settings of_client = DV_CLIENT_SETTINGS_INIT;
  of_client.software = text("Client"), of_client.user_seed = (dv_bytes){user_seed, 32}, of_client.takes_extensions = true;
  dv_material first = fresh();
  CHECK(dv_server_new(&server, &of_server, &first, padding) == DV_DONE);
  first = fresh();
  CHECK(dv_client_new(&client, &of_client, &first, padding) == DV_DONE);
  CHECK(dv_decide_later(&server) == DV_DONE && dv_decide_later(&client) == DV_DONE);
}
static void begin_login(bool key_is, bool signature_is) {
  uint32_t channel;
  begin(key_is, signature_is);
  CHECK(go() && ask_client(dv_ask_on(DV_ASK_SERVICE, 0), &channel));
}
static void finish(void) {
  decide = 0;
  dv_free(client);
  dv_free(server);
  CHECK(held == 0);
}
static dv_ask by_key(uint32_t kind, const char *user) {
  dv_ask ask = dv_ask_texts(kind, 0, text(user), false, key);
  ask.algorithm = name;
  return ask;
}
static bool login(uint32_t kind, const char *user) {
  uint32_t channel;
  return ask_client(by_key(kind, user), &channel);
}

/* A probe, the text, a signature of it, and the login: the program is asked about the key, and then about the signature. */
static void lets_in(void) {
  begin_login(true, true);
  CHECK(told[0][DV_EXTENSIONS] == 1);
  CHECK(login(DV_ASK_LOGIN_PROBE, "me") && told[0][DV_KEY_OK] == 1 && asks == 2 && asked[1] == DV_WANTS_KEY);
  CHECK(sign("me") == DV_DONE && login(DV_ASK_LOGIN_KEY, "me") && asks == 3 && asked[2] == DV_WANTS_SIGNATURE);
  CHECK(told[1][DV_ACCEPTED] == 1 && told[0][DV_AUTHENTICATED] == 1 && let_in_by[1] == DV_SHOWN_KEY && let_in_key == strlen(KEY) && !stopped);
  finish();
}

/* Yes to the key lets nobody in. The signature is asked about once. Shown for another user it is refused unasked, and a new one is a new question. */
static void yes_to_the_key_alone(void) {
  uint8_t room[24], other[24];
  begin_login(true, false);
  CHECK(sign("me") == DV_DONE && login(DV_ASK_LOGIN_KEY, "me") && asks == 3 && told[0][DV_FAILED] == 1 && !told[1][DV_ACCEPTED]);
  CHECK(login(DV_ASK_LOGIN_KEY, "me") && asks == 3 && told[0][DV_FAILED] == 2);
  says_signature = true;
  memcpy(other, signature_of(signed_text, signed_len, room).at, sizeof other);
  CHECK(set_signature(&client, "you", (dv_bytes){other, sizeof other}) == DV_DONE);
  CHECK(login(DV_ASK_LOGIN_KEY, "you") && asks == 4 && asked[3] == DV_WANTS_KEY && told[0][DV_FAILED] == 3 && !told[1][DV_ACCEPTED]);
  finish();
}

/* A key that is refused asks for no signature. */
static void no_to_the_key(void) {
  begin_login(false, true);
  CHECK(sign("me") == DV_DONE && login(DV_ASK_LOGIN_KEY, "me") && asks == 2 && asked[1] == DV_WANTS_KEY && told[0][DV_FAILED] == 1);
  CHECK(login(DV_ASK_LOGIN_KEY, "me") && asks == 2 && told[0][DV_FAILED] == 2 && !told[1][DV_ACCEPTED]);
  finish();
}

/* What is no text or no signature, and when; and that nothing changes then. */
static void refusals(void) {
  uint8_t to[256], untouched[256], many[4097] = {0};
  uint8_t *most = calloc(1, DV_MOST_SIGNED);
  size_t len = 77;
  uint32_t channel;
  dv_bytes id = DV_BYTES_INIT, out = DV_BYTES_INIT;
  if (!most) abort();
  memset(to, 9, sizeof to);
  memcpy(untouched, to, sizeof to);
  begin(true, true);
  for (int side = 0; side < 2; side++) CHECK(text_of(side ? &server : &client, "me", to, sizeof to, &len) == DV_NOT_YET && len == 77);
  CHECK(set_signature(&client, "me", text("a signature")) == DV_NOT_YET);
  CHECK(go() && ask_client(dv_ask_on(DV_ASK_SERVICE, 0), &channel));
  CHECK(text_of(&client, "me", to, sizeof to, &len) == DV_DONE && dv_session_id(&client, &id) && id.len == 32);
  CHECK(len == 81 + 2 + name.len + key.len && !memcmp(to, "\0\0\0\x20", 4) && !memcmp(to + 4, id.at, 32));
  CHECK(!memcmp(to + 36, "\x32\0\0\0\2me\0\0\0\x0essh-connection\0\0\0\x09publickey\1\0\0\0\x12x-sign@example.org\0\0\0\x15", 65));
  CHECK(!memcmp(to + len - key.len, key.at, key.len) && !memcmp(to + len, untouched + len, sizeof to - len));
  memset(to, 9, sizeof to);
  for (size_t room = 0; room < len; room += 7) {
    size_t written = 77;
    CHECK(text_of(&client, "me", to, room, &written) == DV_TOO_LONG && written == 77 && !memcmp(to, untouched, sizeof to));
  }
  CHECK(set_signature(&client, "me", none) == DV_BAD_SIGNATURE && set_signature(&client, "me", (dv_bytes){many, 4097}) == DV_BAD_SIGNATURE);
  CHECK(set_signature(&server, "me", text("a signature")) == DV_WRONG_SIDE);
  dv_ask ask = by_key(DV_ASK_LOGIN_KEY, "me");
  CHECK(dv_ask_now(&client, &ask, &channel) == DV_NO_SIGNATURE);
  CHECK(dv_queue(&client, &ask) == DV_DONE && dv_work(&client, &channel) == DV_NO_SIGNATURE && !dv_queued(&client));
  dv_output(&client, &out);
  CHECK(!out.len && dv_sent(&client, 0, &out) == false);
  CHECK(set_signature(&client, "me", (dv_bytes){many, 4096}) == DV_DONE && set_signature(&client, "me", text("another")) == DV_SIGNATURE_KNOWN);
  /* the user's own key signs by itself */
  uint8_t seed[32] = {8}, own[51] = "\0\0\0\x0bssh-ed25519\0\0\0 ";
  dv_public_key(seed, own + 19);
  name = text("ssh-ed25519"), key = (dv_bytes){own, sizeof own};
  CHECK(set_signature(&client, "me", text("another")) == DV_SIGNATURE_KNOWN);
  /* a text that no packet has room for */
  key = (dv_bytes){most, DV_MOST_SIGNED};
  CHECK(text_of(&client, "me", most, DV_MOST_SIGNED, &len) == DV_TOO_LONG);
  finish();
  free(most);
}

/* Each allocation of a signature, and of an answer about one, is refused in turn. */
static int32_t refused_answers(bool at_server) {
  dv_end *end = at_server ? &server : &client;
  int32_t code;
  long n = 0;
  for (;; n++) {
    left = n;
    code = dv_answer(end, true);
    bool was_refused = left == -2;
    left = -1;
    if (code != DV_MEMORY || !was_refused) break;
    CHECK(!dv_is_over(end));
  }
  CHECK(n > 0 && code == DV_DONE);
  asks++;
  return code;
}
static void without_memory(void) {
  uint8_t room[24];
  begin_login(true, true);
  CHECK(text_of(&client, "me", signed_text, sizeof signed_text, &signed_len) == DV_DONE);
  dv_bytes signature = signature_of(signed_text, signed_len, room);
  long n = 0;
  int32_t code;
  for (;; n++) {
    uint32_t channel;
    dv_ask ask = by_key(DV_ASK_LOGIN_KEY, "me");
    left = n;
    code = set_signature(&client, "me", signature);
    bool was_refused = left == -2;
    left = -1;
    if (code != DV_MEMORY || !was_refused) break;
    CHECK(!dv_is_over(&client) && dv_ask_now(&client, &ask, &channel) == DV_NO_SIGNATURE);
  }
  CHECK(n > 0 && code == DV_DONE);
  decide = refused_answers;
  CHECK(login(DV_ASK_LOGIN_KEY, "me") && told[1][DV_ACCEPTED] == 1 && !stopped);
  finish();
}

/* Settings that are none. */
static void settings(void) {
  uint8_t seed[32] = {7}, padding[32] = {3}, long_text[1025];
  memset(long_text, 'a', sizeof long_text);
  dv_end end;
  dv_material first = fresh();
  dv_server_settings of_server = DV_SERVER_SETTINGS_INIT;
  of_server.software = text("Server"), of_server.host_seed = (dv_bytes){seed, 32};
  of_server.user_algorithms = (dv_bytes){long_text, 1025};
  CHECK(dv_server_new(&end, &of_server, &first, padding) == DV_BAD_EXTENSION);
  of_server.user_algorithms.len = 1024;
  CHECK(dv_server_new(&end, &of_server, &first, padding) == DV_DONE);
  dv_free(end);
  dv_client_settings of_client = DV_CLIENT_SETTINGS_INIT;
  of_client.software = text("Client");
  dv_bytes names[2] = {text("rsa-sha2-512"), text("no name")};
  of_client.host_algorithms = names, of_client.host_algorithms_len = 1;
  CHECK(dv_client_new(&end, &of_client, &first, padding) == DV_DONE);
  dv_bytes payload = DV_BYTES_INIT, out = DV_BYTES_INIT;
  dv_output(&end, &out);
  bool is_offered = false, has_other = false;
  for (size_t at = 0; at + 12 <= out.len; at++) {
    is_offered |= !memcmp(out.at + at, "rsa-sha2-512", 12);
    has_other |= !memcmp(out.at + at, "ssh-ed25519", 11);
  }
  CHECK(is_offered && !has_other && !dv_sent(&end, 9, &payload));
  dv_free(end);
  of_client.host_algorithms_len = 2;
  CHECK(dv_client_new(&end, &of_client, &first, padding) == DV_BAD_LIST);
  CHECK(held == 0);
}

int main(void) {
  lets_in();
  yes_to_the_key_alone();
  no_to_the_key();
  refusals();
  without_memory();
  settings();
  printf(bad ? "%d checks fail\n" : "the test of keys passes\n", bad);
  return bad != 0;
}
