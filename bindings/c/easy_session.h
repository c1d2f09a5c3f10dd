/* What the test of the easy calls stands on: a client and a server in one process that are driven by the calls of divrelca_easy.h, each
 * with a program that does what a real one does, and a source of random bytes that can fail. */
#ifndef DIVRELCA_EASY_SESSION_H
#define DIVRELCA_EASY_SESSION_H
#include "checks.h"
#include "divrelca_easy.h"

enum { WINDOW = 40000, BODY = 150000, OWN_CODE = 1234 };

/* A source whose bytes are those of a counter. The draw of the number `refused` fails, from 1. Where it is broken the counter stays, or
 * goes round after so many draws as `period` says. */
typedef struct source {
  uint32_t number, draws, refused, period;
  bool is_stuck_cookie, is_stuck_secret, is_zero;
} source;
static bool draw(void *context, uint8_t *to, size_t len) {
  source *s = context;
  uint32_t number = s->number + (s->period ? s->draws % s->period : s->draws);
  if (++s->draws == s->refused) return false;
  if ((s->is_stuck_cookie && len == 16) || (s->is_stuck_secret && s->draws != 3 && len == 32)) number = s->number;
  memset(to, 0, len);
  if (s->is_zero) return true;
  to[0] = 1, to[1] = (uint8_t)(number >> 16), to[2] = (uint8_t)(number >> 8), to[3] = (uint8_t)number;
  return true;
}

/* An end, and what its program knows. */
typedef struct side {
  dv_easy easy;
  source random;
  bool is_server, has_channel, may_send, is_ended;
  int32_t answers; /* what its program answers to each event, if that is not DV_DONE */
  uint32_t channel, status;
  size_t held, came, sent, to_send;
  int told[32];
  uint32_t refusal, piece;
} side;
static side client, server;
static dv_bytes none = DV_BYTES_INIT;

static int32_t hear_client(side *me, const dv_event *e) {
  uint8_t room[32];
  switch (e->kind) {
    case DV_COMPLETED: return e->number == 1 ? dv_easy_queue(&me->easy, dv_ask_on(DV_ASK_SERVICE, 0)) : DV_DONE;
    case DV_SERVICE: return dv_easy_queue(&me->easy, dv_ask_texts(DV_ASK_LOGIN_KEY, 0, dv_words("me"), false, none));
    case DV_AUTHENTICATED: return dv_easy_queue(&me->easy, dv_ask_window(DV_ASK_OPEN, 0, dv_words("session"), WINDOW, 32768));
    case DV_CONFIRMED:
      me->has_channel = true, me->channel = e->channel;
      return dv_easy_request(&me->easy, e->channel, "exec", true, dv_built(room, dv_build_string(room, sizeof room, dv_words("cat"))));
    case DV_REQUEST_DONE: me->may_send = e->flag; return DV_DONE;
    case DV_REQUESTED:
      if (dv_is(e->name, "exit-status")) CHECK(dv_read_number(e->data, &me->status));
      return dv_decline(&me->easy.end);
    case DV_CLOSED:
      me->has_channel = false;
      return dv_easy_queue(&me->easy, dv_ask_texts(DV_ASK_DISCONNECT, 0, none, false, dv_words("bye")));
    default: return dv_decline(&me->easy.end);
  }
}
static int32_t hear_server(side *me, const dv_event *e) {
  dv_bytes command;
  switch (e->kind) {
    case DV_OPENED:
      me->has_channel = true, me->channel = e->channel;
      return dv_easy_queue(&me->easy, dv_ask_window(DV_ASK_CONFIRM, e->channel, none, WINDOW, 20000));
    case DV_REQUESTED:
      CHECK(dv_is(e->name, "exec") && dv_read_string(e->data, &command) && dv_is(command, "cat"));
      return dv_easy_queue(&me->easy, dv_ask_reply(e->channel, true));
    case DV_ENDED: me->is_ended = true; return DV_DONE;
    case DV_CLOSED: me->has_channel = false; return DV_DONE;
    default: return dv_decline(&me->easy.end);
  }
}
/* The client is done with data at once; the server sends them back first. */
static int32_t hear(void *context, dv_easy *easy, const dv_event *e) {
  side *me = context;
  CHECK(easy == &me->easy && e->kind < 32 && e->kind != DV_NOTHING);
  me->told[e->kind]++;
  if (me->answers != DV_DONE) return me->answers;
  if (e->kind == DV_REFUSED) me->refusal = e->number;
  if (e->kind == DV_DATA) {
    me->came += e->data.len;
    if (me->is_server) return me->held += e->data.len, DV_DONE;
    return dv_consume(&easy->end, e->channel, e->data.len);
  }
  return me->is_server ? hear_server(me, e) : hear_client(me, e);
}

/* Sends what can be sent now. Once all is sent the client says so, and the server ends the command. */
static int32_t send_on(side *me) {
  static uint8_t body[BODY];
  size_t taken = 0, left_over = me->is_server ? me->held : me->to_send - me->sent;
  int32_t code = DV_DONE;
  if (!me->has_channel || (!me->is_server && !me->may_send)) return DV_DONE;
  if (left_over) code = dv_easy_send(&me->easy, me->channel, 0, body, left_over, &taken);
  me->sent += taken;
  if (me->is_server) {
    me->held -= taken;
    if (code == DV_DONE) code = dv_consume(&me->easy.end, me->channel, taken);
  }
  if (code != DV_DONE || taken < left_over) return code;
  if (!me->is_server) me->may_send = false, code = dv_easy_queue(&me->easy, dv_ask_on(DV_ASK_EOF, me->channel));
  else if (me->is_ended) me->is_ended = false, code = dv_easy_exit(&me->easy, me->channel, 0x01020304);
  return code == DV_DONE ? dv_settle(&me->easy) : code;
}

/* Carries what waits at one end to the other, so many bytes at a time, and answers the code of the last dv_drive. */
static int32_t carry(side *from, side *to) {
  dv_bytes out = DV_BYTES_INIT;
  int32_t code = DV_DONE;
  dv_output(&from->easy.end, &out);
  size_t all = out.len, piece = to->piece ? to->piece : all;
  uint8_t *copy = malloc(all ? all : 1);
  if (!copy) exit(2);
  memcpy(copy, out.at, all);
  dv_written(&from->easy.end, all);
  for (size_t at = 0; at < all && code == DV_DONE; at += piece) {
    /* (a block of its own, which is gone afterwards) */
    size_t len = all - at < piece ? all - at : piece;
    uint8_t *part = malloc(len);
    if (!part) exit(2);
    memcpy(part, copy + at, len);
    code = dv_drive(&to->easy, part, len, hear, to);
    CHECK(to->easy.taken == len || (to->easy.taken < len && code != DV_DONE && !dv_is_refusal(code)));
    free(part);
  }
  free(copy);
  return code;
}
static bool has_output(side *it) {
  dv_bytes out = DV_BYTES_INIT;
  dv_output(&it->easy.end, &out);
  return out.len != 0;
}
/* Carries, and sends, until nothing waits at either end. Answers the first code that is not DV_DONE; of an end that is over the other one
 * still hears what it said. */
static int32_t go(void) {
  int32_t first = DV_DONE;
  for (int round = 0; round < 10000; round++) {
    for (int way = 0; way < 4; way++) {
      side *it = way & 1 ? &server : &client, *other = way & 1 ? &client : &server;
      int32_t code = DV_DONE;
      if (way >= 2) code = carry(other, it);
      else if (!dv_is_over(&it->easy.end)) code = send_on(it);
      if (first == DV_DONE) first = code;
      if (first != DV_DONE && first != DV_OVER) return first;
      if (way == 1 && !has_output(&client) && !has_output(&server)) return first;
    }
  }
  return OWN_CODE + 1;
}

/* Both ends, with packets so many until the next exchange is due. */
static int32_t begin(uint32_t epoch_limit, size_t to_send) {
  uint8_t host_seed[32] = {7}, user_seed[32] = {8}, host_key[32], user_key[32];
  dv_public_key(host_seed, host_key), dv_public_key(user_seed, user_key);
  memset(&client, 0, sizeof client), memset(&server, 0, sizeof server);
  server.is_server = true, server.random.number = 1000000, client.to_send = to_send;
  dv_user user = {dv_words("me"), {user_key, 32}, DV_LOGIN_KEY};
  dv_server_settings of_server = DV_SERVER_SETTINGS_INIT;
  of_server.software = dv_words("Server"), of_server.host_seed = dv_built(host_seed, 32);
  of_server.users = &user, of_server.users_len = 1, of_server.epoch_limit = epoch_limit;
  dv_client_settings of_client = DV_CLIENT_SETTINGS_INIT;
  of_client.software = dv_words("Client"), of_client.host_key = dv_built(host_key, 32);
  of_client.user_seed = dv_built(user_seed, 32), of_client.epoch_limit = epoch_limit;
  int32_t code = dv_easy_server(&server.easy, &of_server, draw, &server.random);
  return code == DV_DONE ? dv_easy_client(&client.easy, &of_client, draw, &client.random) : code;
}
static void finish(void) {
  dv_easy_close(&client.easy), dv_easy_close(&server.easy);
  CHECK(held == 0);
}
static dv_ask rekey(void) { return dv_ask_on(DV_ASK_REKEY, 0); }
#endif
