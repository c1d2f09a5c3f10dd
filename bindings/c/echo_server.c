/* echo_server HOST_KEY AUTHORIZED_KEYS USER PORT: serves many connections of one user by one loop over `poll`, on 127.0.0.1.
 * Whatever command is asked for, the input comes back, and the status is 0. */
#include "divrelca_easy.h"
#include <arpa/inet.h>
#include <poll.h>
#include <stdio.h>
#include <stdlib.h>
#include <sys/random.h>
#include <unistd.h>
enum { PEERS = 64, WINDOW = 65536, NO_WAIT = MSG_DONTWAIT | MSG_NOSIGNAL };
/* A connection. What came and is not sent back yet is at most the window, since no more of it is given back before. */
typedef struct peer {
  dv_easy easy;
  uint32_t channel;
  bool has_channel, is_ended;
  size_t held_len;
  uint8_t held[WINDOW];
} peer;
static void must(bool it, const char *what) {
  if (!it) fprintf(stderr, "echo_server: %s is not as it should be\n", what), exit(1);
}
static dv_bytes file(const char *path, uint8_t *room) {
  FILE *f = fopen(path, "rb");
  must(f != NULL, path);
  size_t len = fread(room, 1, WINDOW, f);
  return fclose(f), dv_built(room, len);
}
static bool draw(void *context, uint8_t *to, size_t len) { return !context && getrandom(to, len, 0) == (ssize_t)len; }
static int32_t hear(void *context, dv_easy *easy, const dv_event *e) {
  peer *p = context;
  bool is_own = p->has_channel && e->channel == p->channel;
  if (e->kind == DV_OPENED && !p->has_channel && dv_is(e->name, "session")) {
    p->has_channel = true, p->is_ended = false, p->held_len = 0, p->channel = e->channel;
    return dv_easy_queue(easy, dv_ask_window(DV_ASK_CONFIRM, e->channel, dv_words(""), WINDOW, 32768));
  }
  if (e->kind == DV_REQUESTED && is_own && e->flag && (dv_is(e->name, "exec") || dv_is(e->name, "shell")))
    return dv_easy_queue(easy, dv_ask_reply(e->channel, true));
  if (e->kind == DV_DATA && (!is_own || e->data.len > WINDOW - p->held_len)) return dv_consume(&easy->end, e->channel, e->data.len);
  if (e->kind == DV_DATA) memcpy(p->held + p->held_len, e->data.at, e->data.len), p->held_len += e->data.len;
  if (e->kind == DV_ENDED && is_own) p->is_ended = true;
  if (e->kind == DV_CLOSED && is_own) p->has_channel = false;
  return dv_decline(&easy->end);
}
/* Sends back what the client's window takes, and ends the command once all is sent. */
static int32_t send_back(peer *p) {
  size_t taken = 0;
  if (!p->has_channel) return DV_DONE;
  int32_t code = dv_easy_send(&p->easy, p->channel, 0, p->held, p->held_len, &taken);
  memmove(p->held, p->held + taken, p->held_len -= taken);
  if (code == DV_DONE) code = dv_consume(&p->easy.end, p->channel, taken);
  if (code == DV_DONE && p->is_ended && !p->held_len) p->is_ended = false, code = dv_easy_exit(&p->easy, p->channel, 0);
  return code == DV_DONE ? dv_settle(&p->easy) : code;
}
/* Reads and writes what the socket takes now. False where the connection is over. */
static bool serve(struct pollfd *at, peer *p) {
  static uint8_t buffer[32768];
  dv_bytes out = DV_BYTES_INIT;
  ssize_t n = at->revents & ~POLLOUT ? recv(at->fd, buffer, sizeof buffer, NO_WAIT) : -1;
  int32_t code = n > 0 ? dv_drive(&p->easy, buffer, (size_t)n, hear, p) : DV_DONE;
  if (!n || (at->revents & (POLLERR | POLLNVAL))) return false;
  if (code == DV_DONE) code = send_back(p);
  for (dv_output(&p->easy.end, &out); out.len; dv_output(&p->easy.end, &out)) {
    if ((n = send(at->fd, out.at, out.len, NO_WAIT)) < 0) break;
    dv_written(&p->easy.end, (size_t)n);
  }
  at->events = out.len ? POLLIN | POLLOUT : POLLIN;
  return code == DV_DONE;
}
int main(int count, char **words) {
  static uint8_t keys[64][32], texts[2][WINDOW], seed[32], key[32];
  static peer peers[PEERS];
  dv_user users[64];
  size_t line, keys_len = 1, n = 0;
  must(count == 5, "HOST_KEY AUTHORIZED_KEYS USER PORT");
  dv_bytes host = file(words[1], texts[0]), all = file(words[2], texts[1]);
  must(dv_private_key(host.at, host.len, seed, key, &line) == DV_DONE, words[1]);
  for (; n < keys_len && n < 64; users[n] = (dv_user){dv_words(words[3]), dv_built(keys[n], 32), DV_LOGIN_KEY}, n++)
    must(dv_authorized_key(all.at, all.len, n, keys[n], &keys_len, &line) == DV_DONE, words[2]);
  dv_server_settings settings = DV_SERVER_SETTINGS_INIT;
  settings.software = dv_words("echo"), settings.host_seed = dv_built(seed, 32), settings.users = users, settings.users_len = n;
  struct sockaddr_in here = {.sin_family = AF_INET, .sin_port = htons((uint16_t)atoi(words[4])), .sin_addr = {htonl(INADDR_LOOPBACK)}};
  struct pollfd polled[PEERS + 1] = {{socket(AF_INET, SOCK_STREAM | SOCK_NONBLOCK, 0), POLLIN, 0}}, *at;
  setsockopt(polled->fd, SOL_SOCKET, SO_REUSEADDR, &(int){1}, sizeof(int));
  must(!bind(polled->fd, (struct sockaddr *)&here, sizeof here) && !listen(polled->fd, 64), "the port");
  for (at = polled + 1; at <= polled + PEERS; at++) at->fd = -1;
  for (;;) {
    if (poll(polled, PEERS + 1, -1) < 0) continue;
    int fd = polled->revents ? accept(polled->fd, NULL, NULL) : -1;
    for (at = polled + 1; at <= polled + PEERS; at++) {
      dv_easy *easy = &peers[at - polled - 1].easy;
      bool is_free = at->fd < 0;
      if (is_free && fd >= 0 && dv_easy_server(easy, &settings, draw, NULL) == DV_DONE) {
        peers[at - polled - 1].has_channel = false, at->fd = fd, at->events = POLLIN | POLLOUT, fd = -1;
      } else if (!is_free && at->revents && !serve(at, &peers[at - polled - 1])) {
        close(at->fd), dv_easy_close(easy), at->fd = -1;
      }
    }
    if (fd >= 0) close(fd); /* no place is free, or memory is refused */
  }
}
