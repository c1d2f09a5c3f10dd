/* Each code by which an ask is refused, 1 to 12: what was asked for is not done, nothing is put out, and the end goes on. Then asks that wait when their channel
 * ends, and output that is written in pieces. */
#include "session.h"

enum { WINDOW = 40000, PACKET = 32768 };

/* The channel at the client. */
static uint32_t here;

/* A client and a server, with the client let in and a channel open, whose window for the client's data has 10 bytes. */
static void begin(uint32_t epoch_limit) {
  uint8_t host_seed[32] = {7}, host_key[32], user_seed[32] = {8}, user_key[32], padding[32] = {3};
  uint32_t channel;
  dv_public_key(host_seed, host_key);
  dv_public_key(user_seed, user_key);
  stopped = 0, pairs_fed = 0;
  dv_user user = {text("me"), {user_key, 32}, DV_LOGIN_KEY};
  dv_server_settings of_server = DV_SERVER_SETTINGS_INIT;
  of_server.software = text("Server"), of_server.host_seed = (dv_bytes){host_seed, 32}, of_server.users = &user, of_server.users_len = 1;
  dv_client_settings of_client = DV_CLIENT_SETTINGS_INIT;
  of_client.software = text("Client"), of_client.host_key = (dv_bytes){host_key, 32}, of_client.user_seed = (dv_bytes){user_seed, 32};
  of_client.epoch_limit = epoch_limit;
  dv_material first = fresh();
  CHECK(dv_server_new(&server, &of_server, &first, padding) == DV_DONE);
  first = fresh();
  CHECK(dv_client_new(&client, &of_client, &first, padding) == DV_DONE);
  dv_ask early = dv_ask_on(DV_ASK_SERVICE, 0);
  CHECK(dv_ask_now(&client, &early, &channel) == DV_NOT_YET);
  CHECK(go() && ask_client(early, &channel) && ask_client(dv_ask_texts(DV_ASK_LOGIN_KEY, 0, text("me"), false, none), &channel));
  CHECK(ask_client(dv_ask_window(DV_ASK_OPEN, 0, text("session"), WINDOW, PACKET), &here));
  CHECK(ask_server(dv_ask_window(DV_ASK_CONFIRM, there, none, 10, PACKET)));
}
static void finish(void) {
  CHECK(!stopped && !dv_is_over(&client) && !dv_is_over(&server));
  dv_free(client);
  dv_free(server);
  CHECK(held == 0);
}

/* Whether the client refuses the ask by this code, and puts nothing out. */
static bool refuses(dv_ask ask, int32_t code) {
  dv_bytes before = DV_BYTES_INIT, after = DV_BYTES_INIT;
  uint32_t channel = 77;
  dv_output(&client, &before);
  int32_t answer = dv_ask_now(&client, &ask, &channel);
  dv_output(&client, &after);
  if (answer != code) printf("code %d, and not %d\n", answer, code);
  return answer == code && channel == 77 && before.len == after.len;
}
static dv_ask data_of(size_t len) {
  static const uint8_t body[PACKET + 1];
  return dv_ask_texts(DV_ASK_DATA, here, none, false, (dv_bytes){body, len});
}

static void on_a_channel(void) {
  static const uint8_t description[1025];
  dv_ask login = dv_ask_texts(DV_ASK_LOGIN_NONE, 0, text("me"), false, none), nowhere = dv_ask_on(DV_ASK_EOF, 7);
  begin(1u << 20);
  CHECK(refuses(login, DV_ENDED_ALREADY));
  CHECK(refuses(nowhere, DV_NO_CHANNEL));
  CHECK(refuses(data_of(11), DV_NO_ROOM));
  CHECK(refuses(dv_ask_texts(DV_ASK_DISCONNECT, 0, none, false, (dv_bytes){description, sizeof description}), DV_TOO_LONG));
  CHECK(refuses(dv_ask_on(DV_ASK_REPLY, here), DV_NOTHING_OWED));
  CHECK(refuses(dv_ask_number(DV_ASK_ADJUST, here, UINT32_MAX), DV_TOO_MUCH));
  uint32_t channel = 77;
  CHECK(dv_ask_now(&server, &login, &channel) == DV_WRONG_SIDE && channel == 77);
  CHECK(done(dv_ask_now(&client, &(dv_ask){.kind = DV_ASK_REKEY, .name = none, .data = none, .algorithm = none}, &channel)));
  CHECK(refuses(dv_ask_on(DV_ASK_EOF, here), DV_BUSY));
  CHECK(go() && ask_client(dv_ask_on(DV_ASK_EOF, here), &channel));
  CHECK(refuses(data_of(1), DV_ENDED_ALREADY));
  finish();
}

/* The table of channels has 1,024 places, of which one is taken. */
static void many_channels(void) {
  begin(1u << 20);
  dv_ask open = dv_ask_window(DV_ASK_OPEN, 0, text("session"), WINDOW, PACKET);
  for (uint32_t i = 1; i < 1024; i++) {
    uint32_t channel = UINT32_MAX;
    CHECK(dv_ask_now(&client, &open, &channel) == DV_DONE && channel == i);
  }
  CHECK(refuses(open, DV_TABLE_FULL));
  CHECK(go());
  CHECK(refuses(open, DV_TABLE_FULL));
  finish();
}

/* After 64 packets the next exchange is due, and it takes a pair that nobody used. */
static void exchanges(void) {
  begin(64);
  dv_ask ignored = dv_ask_texts(DV_ASK_GLOBAL, 0, text("x"), false, none);
  uint32_t channel, sent = 0;
  while (!dv_rekey_due(&client) && sent < 64) {
    CHECK(dv_ask_now(&client, &ignored, &channel) == DV_DONE);
    sent++;
  }
  CHECK(sent < 64 && refuses(ignored, DV_REKEY_DUE));
  CHECK(ask_client(dv_ask_on(DV_ASK_REKEY, 0), &channel) && !dv_rekey_due(&client));
  finish();
  feeds = false;
  begin(64);
  CHECK(refuses(dv_ask_on(DV_ASK_REKEY, 0), DV_NO_MATERIAL));
  feeds = true;
  dv_material pair = fresh();
  CHECK(dv_feed(&client, &pair) && dv_ask_now(&client, &(dv_ask){.kind = DV_ASK_REKEY, .name = none, .data = none, .algorithm = none}, &channel) == DV_DONE);
  finish();
}

/* What waits at the server goes to the client, which makes none of the asks that wait. Answers how many bytes of data came. */
static size_t hear(const uint8_t *bytes, size_t len) {
  size_t data = 0;
  for (size_t at = 0, used = 0; at < len; at += used) {
    dv_event event = DV_EVENT_INIT;
    int32_t code = dv_take(&client, bytes + at, len - at, &used);
    CHECK(code == DV_DONE);
    if (code != DV_DONE) break;
    dv_show_event(&client, &event);
    if (event.kind == DV_DATA) data += event.data.len;
  }
  return data;
}
static size_t hear_server(void) {
  static uint8_t copy[2 * PACKET];
  dv_bytes out = DV_BYTES_INIT;
  dv_output(&server, &out);
  size_t len = out.len < sizeof copy ? out.len : sizeof copy;
  memcpy(copy, out.at, len);
  dv_written(&server, len);
  return hear(copy, len);
}
/* The server closes the channel, and the client opens another one, which gets the number of the first. */
static void next_channel(void) {
  uint32_t channel = UINT32_MAX;
  dv_ask over = dv_ask_on(DV_ASK_CLOSE, there), open = dv_ask_window(DV_ASK_OPEN, 0, text("session"), WINDOW, PACKET);
  CHECK(done(dv_ask_now(&server, &over, &channel)));
  hear_server();
  CHECK(done(dv_ask_now(&client, &open, &channel)) && channel == here);
  CHECK(carry(true));
  dv_ask confirm = dv_ask_window(DV_ASK_CONFIRM, there, none, 10, PACKET);
  CHECK(done(dv_ask_now(&server, &confirm, &channel)));
  hear_server();
  CHECK(dv_room(&client, here) == 10);
}
/* Whether the client refuses the asks that wait, so many of them, and puts nothing out. */
static bool drops(size_t count) {
  uint32_t channel = 77;
  dv_bytes out = DV_BYTES_INIT;
  if (dv_queued(&client) != count) return false;
  for (size_t i = 0; i < count; i++)
    if (dv_work(&client, &channel) != DV_NO_CHANNEL) return false;
  dv_output(&client, &out);
  return channel == 77 && !out.len && !dv_queued(&client);
}

/* An ask that waits is for the channel that had its number when it was queued, and not for the next one. */
static void after_a_channel(void) {
  begin(1u << 20);
  dv_ask asks[] = {data_of(5), dv_ask_number(DV_ASK_ADJUST, here, 7), dv_ask_texts(DV_ASK_REQUEST, here, text("exec"), true, none),
                   dv_ask_on(DV_ASK_EOF, here), dv_ask_on(DV_ASK_CLOSE, here)};
  size_t count = sizeof asks / sizeof *asks;
  for (size_t i = 0; i < count; i++) CHECK(dv_queue(&client, &asks[i]) == DV_DONE);
  next_channel();
  CHECK(drops(count));
  CHECK(go() && dv_room(&client, here) == 10 && dv_room(&server, there) == WINDOW);
  uint32_t channel;
  for (size_t i = 0; i < count; i++) CHECK(dv_queue(&client, &asks[i]) == DV_DONE && dv_work(&client, &channel) == DV_DONE);
  CHECK(go());
  finish();
}

/* Bytes that came on a channel which is closed give nothing to the next one. */
static void after_data(void) {
  static const uint8_t body[30000];
  size_t taken = 0;
  begin(1u << 20);
  CHECK(dv_send(&server, there, 0, body, sizeof body, &taken) == DV_DONE && taken == sizeof body && hear_server() == sizeof body);
  CHECK(dv_consume(&client, here, sizeof body) == DV_DONE);
  next_channel();
  CHECK(dv_consume(&client, here, sizeof body) == DV_DONE);
  CHECK(drops(1));
  CHECK(go() && dv_room(&server, there) == WINDOW);
  finish();
}

/* What is put out is shown whole, in however many pieces it is written, and what is put out later comes after it. */
static void in_pieces(void) {
  static uint8_t body[20000], all[2 * PACKET], rest[2 * PACKET];
  size_t taken = 0, got = 0, len = 0;
  begin(1u << 20);
  CHECK(dv_send(&server, there, 0, body, sizeof body, &taken) == DV_DONE && taken == sizeof body);
  dv_bytes out = DV_BYTES_INIT;
  for (dv_output(&server, &out); out.len && got + out.len <= sizeof all; dv_output(&server, &out)) {
    size_t piece = out.len < 1448 ? out.len : 1448;
    CHECK(!got || (out.len == len && !memcmp(out.at, rest, len)));
    memcpy(all + got, out.at, piece);
    got += piece;
    dv_written(&server, piece);
    dv_output(&server, &out);
    len = out.len;
    memcpy(rest, out.at, len);
    if (got == 5 * 1448 || got == 10 * 1448) {
      CHECK(dv_send(&server, there, 0, body, 5000, &taken) == DV_DONE && taken == 5000);
      dv_output(&server, &out);
      CHECK(out.len > len + 5000 && !memcmp(out.at, rest, len));
      len = out.len;
      memcpy(rest, out.at, len);
    }
  }
  CHECK(!out.len && hear(all, got) == 30000);
  dv_written(&server, 1);
  dv_output(&server, &out);
  CHECK(!out.len);
  finish();
}

/* The text that the user me signs for a login by this key, in this much room of an end. */
static int32_t text_at(dv_end *end, dv_bytes algorithm, dv_bytes key, uint8_t *out, size_t room, size_t *len) {
  return dv_text_to_sign(end, (const uint8_t *)"me", 2, algorithm.at, algorithm.len, key.at, key.len, out, room, len);
}
static int32_t set_signature(dv_end *end, dv_bytes algorithm, dv_bytes key, size_t len) {
  static const uint8_t signature[4097] = {1};
  return dv_set_signature(end, (const uint8_t *)"me", 2, algorithm.at, algorithm.len, key.at, key.len, signature, len);
}

/* A login by a key that is not the client's own: its text, which both ends write, and the signature that is set for it. */
static void signed_elsewhere(void) {
  uint8_t mine[92] = {0}, theirs[92] = {0}, own[51] = {0, 0, 0, 11}, seed[32] = {8};
  dv_bytes algorithm = text("ecdsa"), key = text("key"), own_key = {own, sizeof own};
  size_t len = 77;
  uint32_t channel;
  memcpy(own + 4, "ssh-ed25519", 11);
  own[18] = 32;
  dv_public_key(seed, own + 19);
  begin(1u << 20);
  mine[91] = 9;
  CHECK(text_at(&client, algorithm, key, mine, 90, &len) == DV_TOO_LONG && len == 77 && !mine[0] && !mine[3]);
  CHECK(text_at(&client, algorithm, key, mine, sizeof mine, &len) == DV_DONE && len == 91 && mine[3] == 32 && mine[36] == 50 && mine[91] == 9);
  CHECK(text_at(&server, algorithm, key, theirs, 91, &len) == DV_DONE && !memcmp(mine, theirs, 91));
  dv_ask login = dv_ask_texts(DV_ASK_LOGIN_KEY, 0, text("me"), false, key);
  login.algorithm = algorithm;
  CHECK(refuses(login, DV_NO_SIGNATURE));
  CHECK(dv_queue(&client, &login) == DV_DONE && dv_work(&client, &channel) == DV_NO_SIGNATURE && dv_queued(&client) == 0);
  CHECK(set_signature(&server, algorithm, key, 1) == DV_WRONG_SIDE);
  CHECK(set_signature(&client, algorithm, key, 0) == DV_BAD_SIGNATURE && set_signature(&client, algorithm, key, 4097) == DV_BAD_SIGNATURE);
  CHECK(set_signature(&client, algorithm, key, 4096) == DV_DONE && set_signature(&client, algorithm, key, 1) == DV_SIGNATURE_KNOWN);
  CHECK(set_signature(&client, text("ssh-ed25519"), own_key, 1) == DV_SIGNATURE_KNOWN);
  CHECK(refuses(login, DV_ENDED_ALREADY));
  finish();
}

int main(void) {
  on_a_channel();
  signed_elsewhere();
  many_channels();
  exchanges();
  after_a_channel();
  after_data();
  in_pieces();
  printf(bad ? "%d checks fail\n" : "each refusal of an ask is seen\n", bad);
  return bad != 0;
}
