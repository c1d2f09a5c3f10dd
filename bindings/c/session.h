/* What the tests of the exact calls share: a client and a server in one process, with nothing between them but bytes. */
#ifndef DIVRELCA_SESSION_H
#define DIVRELCA_SESSION_H
#include "checks.h"

static dv_bytes text(const char *words) {
  dv_bytes bytes = {(const uint8_t *)words, strlen(words)};
  return bytes;
}
static const dv_bytes none = DV_BYTES_INIT;
static bool is(dv_bytes bytes, const char *words) { return bytes.len == strlen(words) && !memcmp(bytes.at, words, bytes.len); }

/* ---- the two ends */

static dv_end server, client;
static bool feeds = true; /* whether the ends are given fresh pairs */
static uint8_t pairs_fed;
static dv_material fresh(void) {
  dv_material material;
  pairs_fed++;
  memset(material.cookie, pairs_fed, sizeof material.cookie);
  memset(material.secret, pairs_fed, sizeof material.secret);
  return material;
}

/* Whom the server is given by a look-up once a request by no method names somebody; nobody where there are none. */
static const dv_user *found;
static size_t found_len;

/* The name is copied, since that of an event is the end's. */
static int32_t set_user(dv_bytes name, const dv_user *users, size_t count) {
  uint8_t copy[64];
  size_t len = name.len < sizeof copy ? name.len : sizeof copy;
  memcpy(copy, name.at, len);
  return dv_server_set_user(&server, copy, len, users, count);
}

/* What came of a session: how often each event was told at the client (0) and at the server (1), the channel at the server, bytes of data, the
 * last code that was no DV_DONE, and whether the name of who tried to come in was shown. */
static int told[2][32];
static uint32_t there;
static size_t came[2], came_extended;
static int32_t stopped;
static bool tried_me;

/* By what the user was let in, as the server and as the client say it, and the bytes of the key. What the last request showed that let
 * nobody in, and the bytes of its key. */
static uint32_t let_in_by[2], tried_by;
static size_t let_in_key, tried_key;

/* Called where an end wants an answer, and answers. */
static int32_t (*decide)(bool at_server);

static int32_t take(bool at_server, dv_bytes bytes, size_t *used, dv_event *event) {
  dv_end *end = at_server ? &server : &client;
  int32_t code = dv_take(end, bytes.at, bytes.len, used);
  if (code == DV_WANTED && decide) return decide(at_server);
  if (code != DV_DONE) return code;
  dv_show_event(end, event);
  told[at_server][event->kind]++;
  if (at_server && event->kind == DV_OPENED) there = event->channel;
  if (event->kind == DV_DATA) {
    came[at_server] += event->data.len;
    if (event->extended) came_extended += event->data.len;
    code = dv_consume(end, event->channel, event->data.len);
    if (code != DV_DONE) return code;
  }
  if (event->kind == DV_TRIED && is(event->name, "me") && event->number == DV_SHOWN_NOTHING && !event->data.len) tried_me = true;
  if (event->kind == DV_ACCEPTED || event->kind == DV_AUTHENTICATED) let_in_by[at_server] = event->number;
  if (event->kind == DV_ACCEPTED) let_in_key = event->data.len;
  if (event->kind == DV_TRIED) tried_by = event->number, tried_key = event->data.len;
  if (event->kind == DV_TRIED && event->number == DV_SHOWN_NOTHING && found_len) {
    code = set_user(event->name, found, found_len);
    if (code != DV_DONE) return code;
    dv_show_event(end, event);
  }
  if (event->kind == DV_OPENED && is(event->name, "session")) return DV_DONE;
  if (event->kind == DV_REQUESTED && is(event->name, "exec")) return DV_DONE;
  return dv_decline(end);
}

/* Carries what waits at one end to the other, 1,000 bytes at a time. Each end is fed after each unit, and does what waits in its queue. */
static bool carry(bool to_server) {
  dv_end *from = to_server ? &client : &server, *to = to_server ? &server : &client;
  dv_bytes out = DV_BYTES_INIT;
  dv_output(from, &out);
  size_t all = out.len;
  uint8_t *copy = malloc(all ? all : 1);
  memcpy(copy, out.at, all);
  dv_written(from, all);
  size_t at = 0;
  while (at < all && !stopped) {
    size_t used = 0;
    uint32_t channel;
    dv_event event = DV_EVENT_INIT;
    dv_bytes piece = {copy + at, all - at < 1000 ? all - at : 1000};
    stopped = take(to_server, piece, &used, &event);
    if (event.kind == DV_REFUSED) stopped = 1000 + (int32_t)event.number;
    at += used;
    dv_material pair = fresh();
    if (feeds) dv_feed(to, &pair);
    int32_t code = DV_DONE;
    while (code == DV_DONE && !stopped) code = dv_work(to, &channel);
    if (code == DV_MEMORY) stopped = code;
  }
  free(copy);
  return !stopped;
}
static bool go(void) {
  for (int round = 0; round < 200; round++) {
    dv_bytes a = DV_BYTES_INIT, b = DV_BYTES_INIT;
    dv_output(&client, &a);
    dv_output(&server, &b);
    if (!a.len && !b.len) return true;
    if (!carry(true) || !carry(false)) return false;
  }
  stopped = 2000;
  return false;
}
static bool done(int32_t code) {
  if (code != DV_DONE && !stopped) stopped = code;
  return code == DV_DONE;
}
static inline bool ask_client(dv_ask ask, uint32_t *channel) { return done(dv_ask_now(&client, &ask, channel)) && go(); }
static inline bool ask_server(dv_ask ask) {
  uint32_t channel;
  return done(dv_ask_now(&server, &ask, &channel)) && go();
}
#endif
