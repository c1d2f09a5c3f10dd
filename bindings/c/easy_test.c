/* Sessions by the calls of divrelca_easy.h: whole ones, exchanges of keys by either end at any time, sources of random bytes that fail or
 * repeat themselves, asks that are refused, texts, and each allocation refused in turn. `easy_test N` refuses each Nth alone, for where a
 * session takes long. */
#include "easy_session.h"

/* A whole session, with its bytes in pieces of this size, or all at once. */
static void session(uint32_t piece, size_t body) {
  CHECK(begin(1u << 20, body) == DV_DONE);
  client.piece = server.piece = piece;
  CHECK(go() == DV_OVER && dv_is_over(&client.easy.end) && dv_is_over(&server.easy.end));
  CHECK(client.sent == body && server.came == body && server.sent == body && client.came == body && client.status == 0x01020304);
  CHECK(client.told[DV_COMPLETED] == 1 && server.told[DV_ACCEPTED] == 1 && client.told[DV_ENDED] == 1 && server.told[DV_ENDED] == 1);
  CHECK(client.told[DV_CLOSED] == 1 && server.told[DV_DISCONNECTED] == 1 && !client.told[DV_REFUSED] && !server.told[DV_REFUSED]);
  CHECK(dv_drive(&client.easy, (const uint8_t *)"x", 1, hear, &client) == DV_OVER && dv_settle(&server.easy) == DV_OVER);
  finish();
}

/* Carries until the client's user is let in, and its command runs. */
static bool log_in(void) {
  for (int way = 0; way < 20 && !client.may_send; way++)
    if (carry(&client, &server) != DV_DONE || carry(&server, &client) != DV_DONE) return false;
  return client.may_send;
}

/* The peer begins exchanges of keys in the middle: the end was fed, although nobody thought of it. */
static void peer_exchanges(side *peer, side *end) {
  CHECK(begin(1u << 20, 10000) == DV_DONE && log_in());
  for (int n = 0; n < 5; n++) {
    CHECK(dv_easy_queue(&peer->easy, rekey()) == DV_DONE && dv_settle(&peer->easy) == DV_DONE);
    for (int way = 0; way < 4; way++) CHECK(carry(&client, &server) == DV_DONE && carry(&server, &client) == DV_DONE);
    CHECK(end->told[DV_COMPLETED] == n + 2 && !dv_is_over(&end->easy.end) && !dv_is_over(&peer->easy.end));
  }
  CHECK(go() == DV_OVER && client.came == 10000 && end->told[DV_COMPLETED] == 6 && !client.told[DV_REFUSED] && !server.told[DV_REFUSED]);
  finish();
}
/* What waits at the server goes to the client by dv_take alone, as in a program over the exact calls that leaves dv_feed out. */
static void take_exactly(void) {
  dv_bytes out = DV_BYTES_INIT;
  dv_output(&server.easy.end, &out);
  size_t len = out.len, used = 0;
  uint8_t *copy = malloc(len ? len : 1);
  if (!copy) exit(2);
  memcpy(copy, out.at, len);
  dv_written(&server.easy.end, len);
  for (size_t at = 0; at < len && !dv_is_over(&client.easy.end); at += used) {
    dv_event event = DV_EVENT_INIT;
    CHECK(dv_take(&client.easy.end, copy + at, len - at, &used) == DV_DONE);
    dv_show_event(&client.easy.end, &event);
    client.told[event.kind]++;
    if (event.kind == DV_REFUSED) client.refusal = event.number;
  }
  free(copy);
}
/* Such a program: all goes well until the peer's second exchange. */
static void without_feed(void) {
  CHECK(begin(1u << 20, 10) == DV_DONE && log_in());
  for (int n = 0; n < 2; n++) {
    CHECK(!client.told[DV_REFUSED] && dv_easy_queue(&server.easy, rekey()) == DV_DONE && dv_settle(&server.easy) == DV_DONE);
    for (int way = 0; way < 3; way++) {
      take_exactly();
      CHECK(carry(&client, &server) == DV_DONE || client.told[DV_REFUSED]);
    }
    CHECK(client.told[DV_COMPLETED] == 2);
  }
  CHECK(client.refusal == 12 && !strcmp(dv_refusal_text(client.refusal), "no cookie and secret are kept for a key exchange"));
  finish();
}

/* An exchange is due after 64 packets: a program that only sends goes on for ever. */
static void own_exchanges(void) {
  CHECK(begin(64, BODY) == DV_DONE);
  client.piece = 700;
  CHECK(go() == DV_OVER && client.came == BODY && client.sent == BODY && !client.told[DV_REFUSED] && !server.told[DV_REFUSED]);
  finish();
  CHECK(begin(64, 100) == DV_DONE && log_in());
  int32_t code = DV_DONE;
  for (int n = 0; n < 400 && code == DV_DONE; n++) {
    for (int way = 0; way < 3 && code == DV_DONE; way++) {
      code = carry(&client, &server);
      if (code == DV_DONE) code = carry(&server, &client);
    }
    if (code == DV_DONE) code = dv_easy_queue(&client.easy, dv_ask_texts(DV_ASK_GLOBAL, 0, dv_words("x"), false, none));
    if (code == DV_DONE) code = dv_settle(&client.easy);
  }
  CHECK(code == DV_DONE && server.told[DV_GLOBAL] > 380 && client.told[DV_COMPLETED] > 5);
  CHECK(go() == DV_OVER && client.came == 100);
  finish();
}

/* An exchange that is due in the middle of what is sent is asked for at once: a program may send no more until the peer says something. */
static void due_while_sending(void) {
  static const uint8_t body[25000];
  int seen = 0;
  for (int before = 0; before < 64; before++) {
    const dv_ask ask = rekey();
    uint32_t channel;
    size_t taken = 0;
    CHECK(begin(64, 10) == DV_DONE && log_in());
    for (int n = 0; n < before; n++) CHECK(dv_easy_send(&client.easy, client.channel, 0, body, 1, &taken) == DV_DONE);
    CHECK(dv_easy_send(&client.easy, client.channel, 0, body, sizeof body, &taken) == DV_DONE);
    if (taken == 20000) seen++, CHECK(dv_ask_now(&client.easy.end, &ask, &channel) == DV_BUSY);
    finish();
  }
  CHECK(seen == 1);
}

/* ---- sources that fail */

/* Makes a client alone, with this source. */
static int32_t make(source random) {
  uint8_t seed[32] = {7}, key[32];
  dv_client_settings settings = DV_CLIENT_SETTINGS_INIT;
  dv_public_key(seed, key);
  settings.software = dv_words("Client"), settings.host_key = dv_built(key, 32);
  memset(&client, 0, sizeof client);
  client.random = random;
  int32_t code = dv_easy_client(&client.easy, &settings, draw, &client.random);
  if (code != DV_DONE) CHECK(!client.easy.end.at && held == 0);
  dv_easy_close(&client.easy);
  return code;
}
static bool is_zero(const void *at, size_t len) {
  const uint8_t *bytes = at;
  while (len && !bytes[len - 1]) len--;
  return !len;
}
/* Goes on with a session, in which the server begins exchanges of keys, until the client's code is another than DV_DONE. */
static int32_t until_it_fails(void) {
  int32_t code = DV_DONE;
  for (int n = 0; n < 20 && code == DV_DONE; n++) {
    CHECK(dv_easy_queue(&server.easy, rekey()) == DV_DONE && dv_settle(&server.easy) == DV_DONE);
    for (int way = 0; way < 4 && code == DV_DONE; way++) {
      CHECK(carry(&client, &server) == DV_DONE);
      code = carry(&server, &client);
    }
  }
  return code;
}
static void sources(void) {
  for (uint32_t n = 1; n < 4; n++) CHECK(make((source){.refused = n}) == DV_NO_RANDOM);
  CHECK(make((source){.refused = 4}) == DV_DONE);
  /* bytes that are always the same, and bytes of 0 */
  CHECK(make((source){.period = 1}) == DV_REPEATED && make((source){.is_zero = true}) == DV_REPEATED);
  /* no bytes are left in the middle */
  for (uint32_t n = 1; n < 5; n++) {
    CHECK(begin(1u << 20, 0) == DV_DONE && log_in());
    client.random.refused = client.random.draws + n;
    CHECK(until_it_fails() == DV_NO_RANDOM && client.told[DV_COMPLETED] > 0 && !client.told[DV_REFUSED]);
    finish();
  }
  /* a cookie, or a secret, that is always the same, and pairs that come again after two others */
  for (int n = 0; n < 3; n++) {
    CHECK(begin(1u << 20, 0) == DV_DONE);
    if (n == 0) client.random.is_stuck_cookie = true, client.random.number = 5000;
    if (n == 1) client.random.is_stuck_secret = true, client.random.number = 5000;
    if (n == 2) client.random.period = 4;
    uint32_t before = client.random.draws;
    CHECK(until_it_fails() == DV_REPEATED && client.random.draws > before && !client.told[DV_REFUSED]);
    finish();
  }
}

/* ---- handles, codes and texts */

static void handles(void) {
  dv_end end = {0};
  dv_easy easy = DV_EASY_INIT;
  dv_close(&end), dv_close(&end), dv_easy_close(&easy), dv_easy_close(&easy);
  CHECK(is_zero(&easy, sizeof easy));
  CHECK(begin(1u << 20, 10) == DV_DONE && go() == DV_OVER && !is_zero(client.easy.cookies, sizeof client.easy.cookies));
  end = client.easy.end, client.easy.end.at = 0;
  dv_close(&end);
  CHECK(!end.at);
  dv_close(&end);
  finish();
  CHECK(is_zero(&client.easy, sizeof client.easy) && is_zero(&server.easy, sizeof server.easy));
}

/* A setting that no end takes: its code, and no end. */
static void settings(void) {
  dv_server_settings of_server = DV_SERVER_SETTINGS_INIT;
  dv_client_settings of_client = DV_CLIENT_SETTINGS_INIT;
  source random = {0};
  dv_easy easy = DV_EASY_INIT;
  of_server.software = dv_words("Server");
  CHECK(dv_easy_server(&easy, &of_server, draw, &random) == DV_BAD_KEY && !easy.end.at && is_zero(&easy.fresh, sizeof easy.fresh));
  of_client.size--;
  CHECK(dv_easy_client(&easy, &of_client, draw, &random) == DV_BAD_SIZE && !easy.end.at && held == 0);
  dv_easy_close(&easy);
}

/* Asks that are refused are dropped, the others are made, and the connection goes on. Those that are for nothing any more are no fault. */
static void refused_asks(void) {
  static const uint8_t long_words[2000];
  CHECK(begin(1u << 20, 10) == DV_DONE && log_in());
  const dv_ask too_long = dv_ask_texts(DV_ASK_DISCONNECT, 0, none, false, dv_built(long_words, sizeof long_words));
  const dv_ask global = dv_ask_texts(DV_ASK_GLOBAL, 0, dv_words("x"), false, none);
  CHECK(dv_easy_queue(&client.easy, dv_ask_on(DV_ASK_EOF, 900)) == DV_DONE);
  CHECK(dv_easy_queue(&client.easy, dv_ask_texts(DV_ASK_LOGIN_PASSWORD, 0, dv_words("me"), false, dv_words("x"))) == DV_DONE);
  CHECK(dv_easy_queue(&client.easy, dv_ask_on(DV_ASK_GLOBAL_REPLY, 0)) == DV_DONE && dv_settle(&client.easy) == DV_DONE);
  CHECK(dv_easy_queue(&client.easy, too_long) == DV_DONE && dv_easy_queue(&client.easy, global) == DV_DONE);
  int32_t code = dv_settle(&client.easy);
  CHECK(code == DV_TOO_LONG && dv_is_refusal(code) && !dv_queued(&client.easy.end));
  CHECK(carry(&client, &server) == DV_DONE && server.told[DV_GLOBAL] == 1);
  /* the same in a dv_drive, which takes all bytes */
  CHECK(dv_easy_queue(&server.easy, global) == DV_DONE && dv_settle(&server.easy) == DV_DONE);
  CHECK(dv_easy_queue(&client.easy, too_long) == DV_DONE && carry(&server, &client) == DV_TOO_LONG && client.told[DV_GLOBAL] == 1);
  CHECK(dv_easy_request(&client.easy, 0, "exec", true, none) == DV_TOO_LONG);
  code = go();
  CHECK(code == DV_OVER && client.came == 10 && !client.told[DV_REFUSED] && !server.told[DV_REFUSED]);
  finish();
}

/* The program's own code ends a dv_drive, and that of a refused ask does not. A peer that is refused is an event, and the end is over. */
static void ends(void) {
  CHECK(begin(1u << 20, 10) == DV_DONE);
  client.answers = OWN_CODE;
  CHECK(carry(&client, &server) == DV_DONE && carry(&server, &client) == DV_DONE && carry(&client, &server) == DV_DONE);
  CHECK(carry(&server, &client) == OWN_CODE && !dv_is_over(&client.easy.end) && client.told[DV_COMPLETED] == 1);
  finish();
  CHECK(begin(1u << 20, 10) == DV_DONE);
  client.answers = DV_NO_ROOM;
  CHECK(carry(&client, &server) == DV_DONE && carry(&server, &client) == DV_DONE && carry(&client, &server) == DV_DONE);
  CHECK(carry(&server, &client) == DV_NO_ROOM && client.told[DV_COMPLETED] == 1);
  client.answers = DV_DONE;
  CHECK(dv_easy_queue(&client.easy, dv_ask_on(DV_ASK_SERVICE, 0)) == DV_DONE && dv_settle(&client.easy) == DV_DONE);
  CHECK(go() == DV_OVER && client.came == 10 && !client.told[DV_REFUSED] && !server.told[DV_REFUSED]);
  finish();
  CHECK(begin(1u << 20, 10) == DV_DONE);
  const char *line = "SSH-1.0-x\r\nSSH-2.0-y\r\n";
  CHECK(dv_drive(&client.easy, (const uint8_t *)line, strlen(line), hear, &client) == DV_OVER);
  CHECK(client.refusal == 2 && client.told[DV_REFUSED] == 1);
  finish();
}

static bool is_named(int32_t code) {
  dv_bytes name = DV_BYTES_INIT;
  dv_code_name(code, &name);
  return !dv_is(name, "UNKNOWN");
}
/* Each code that the library names has a text, and no other number has one but those of the easy calls. */
static void texts(void) {
  const char *unknown = dv_text(-3), *unknown_refusal = dv_refusal_text(0);
  for (int32_t code = -1000; code < 2000; code++) {
    bool is_easy = code == DV_NO_RANDOM || code == DV_REPEATED;
    CHECK((strcmp(dv_text(code), unknown) != 0) == (is_named(code) || is_easy));
    CHECK(!(is_named(code) && is_easy));
  }
  for (uint32_t number = 0; number < 300; number++)
    CHECK((strcmp(dv_refusal_text(number), unknown_refusal) != 0) == (number >= 1 && number <= 19));
  CHECK(!strcmp(dv_text(DV_FILE_UNENCRYPTED), "the key has a passphrase") && !strcmp(dv_text(INT32_MIN), unknown));
  CHECK(!strcmp(dv_refusal_text(UINT32_MAX), unknown_refusal) && !strcmp(dv_refusal_text((uint32_t)-1), unknown_refusal));
}

/* ---- memory */

static void refused_memory(int step) {
  int answered = 0, made_up = 0;
  for (int n = 0;; n += step) {
    left = n;
    int32_t code = begin(1u << 20, 50000);
    if (code == DV_DONE) code = go();
    bool was_refused = left == -2;
    left = -1;
    finish();
    if (!was_refused) {
      CHECK(code == DV_OVER);
      break;
    }
    if (code == DV_OVER) made_up++;
    else if (code == DV_MEMORY) answered++;
    else CHECK(code == DV_MEMORY);
    if (bad) break;
  }
  printf("%d allocations refused in turn: %d answered -1, %d were made up for\n", answered + made_up, answered, made_up);
}

int main(int count, char **words) {
  int step = count > 1 ? atoi(words[1]) : 1;
  session(0, BODY), session(1000, BODY), session(1, 3000);
  peer_exchanges(&server, &client), peer_exchanges(&client, &server);
  without_feed();
  own_exchanges();
  due_while_sending();
  sources();
  handles();
  settings();
  refused_asks();
  ends();
  texts();
  refused_memory(step > 0 ? step : 1);
  printf(bad ? "%d checks fail\n" : "the test of the easy calls passes\n", bad);
  return bad != 0;
}
