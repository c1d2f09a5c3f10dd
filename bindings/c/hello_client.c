/* hello_client SOCKET-FD HOST.pub USER KEY: runs `uname` at a server over a connected socket, and ends with the
 * status of the command. 255 is its own: standard error says why. */
#include "divrelca_easy.h"
#include <signal.h>
#include <stdio.h>
#include <stdlib.h>
#include <sys/random.h>
#include <unistd.h>

static const char *user;
static int status = 255;
static void say(const char *what, const char *more) { fprintf(stderr, "hello_client: %s%s\n", what, more); }
static void must(int32_t code, const char *what) {
  if (code == DV_DONE) return;
  say(what, dv_text(code));
  exit(255);
}
static dv_bytes file(const char *path) {
  static uint8_t room[2][4096];
  static int n;
  FILE *f = fopen(path, "rb");
  if (!f) perror(path), exit(255);
  dv_bytes all = dv_built(room[n], fread(room[n], 1, sizeof room[n], f));
  fclose(f), n++;
  return all;
}
static bool draw(void *context, uint8_t *to, size_t len) { return !context && getrandom(to, len, 0) == (ssize_t)len; }
/* Says why nothing came of it, in words of the server's too, and ends the connection. */
static int32_t give_up(dv_easy *easy, const char *what, dv_bytes more) {
  char words[200];
  say(what, dv_escape(more, words, sizeof words));
  return dv_easy_queue(easy, dv_ask_texts(DV_ASK_DISCONNECT, 0, dv_words(""), false, dv_words("bye")));
}
static int32_t hear(void *context, dv_easy *easy, const dv_event *e) {
  uint8_t room[64];
  uint32_t number;
  (void)context;
  switch (e->kind) {
    case DV_COMPLETED: return e->number == 1 ? dv_easy_queue(easy, dv_ask_on(DV_ASK_SERVICE, 0)) : DV_DONE;
    case DV_SERVICE: return dv_easy_queue(easy, dv_ask_texts(DV_ASK_LOGIN_KEY, 0, dv_words(user), false, dv_words("")));
    case DV_AUTHENTICATED: return dv_easy_queue(easy, dv_ask_window(DV_ASK_OPEN, 0, dv_words("session"), 1 << 20, 32768));
    case DV_CONFIRMED:
      return dv_easy_request(easy, e->channel, "exec", true, dv_built(room, dv_build_string(room, sizeof room, dv_words("uname"))));
    case DV_DATA:
      fwrite(e->data.at, 1, e->data.len, e->extended ? stderr : stdout);
      return dv_consume(&easy->end, e->channel, e->data.len);
    case DV_REQUESTED:
      if (dv_is(e->name, "exit-status") && dv_read_number(e->data, &number)) status = (int)(number & 255);
      break;
    case DV_CLOSED: return dv_easy_queue(easy, dv_ask_texts(DV_ASK_DISCONNECT, 0, dv_words(""), false, dv_words("bye")));
    case DV_FAILED: return give_up(easy, "the server does not let the user in; it takes ", e->data);
    case DV_OPEN_FAILED: return give_up(easy, "the server opens no channel: ", e->data);
    case DV_REQUEST_DONE: return e->flag ? DV_DONE : give_up(easy, "the server does not run the command", dv_words(""));
    case DV_REFUSED: say("the server is refused: ", dv_refusal_text(e->number)); break;
    case DV_DISCONNECTED: return status == 255 ? give_up(easy, "the server ended the connection: ", e->data) : DV_DONE;
  }
  return dv_decline(&easy->end);
}
int main(int count, char **words) {
  uint8_t host[32 * DV_MOST_HOST_KEYS], seed[32], key[32], buffer[4096];
  size_t line, host_len;
  dv_bytes f, out = DV_BYTES_INIT;
  dv_easy easy = DV_EASY_INIT;
  if (count != 5) return say("the words are SOCKET-FD HOST.pub USER KEY", ""), 255;
  int fd = atoi(words[1]);
  user = words[3];
  signal(SIGPIPE, SIG_IGN);
  f = file(words[2]), must(dv_known_host_keys(f.at, f.len, dv_none, 0, host, &host_len, &line), "the host's keys: ");
  f = file(words[4]), must(dv_private_key(f.at, f.len, seed, key, &line), "the user's key: ");
  dv_client_settings settings = DV_CLIENT_SETTINGS_INIT;
  settings.software = dv_words("hello");
  settings.host_key = dv_built(host, host_len), settings.user_seed = dv_built(seed, 32);
  must(dv_easy_client(&easy, &settings, draw, NULL), "client: ");
  for (int32_t code = DV_DONE;;) {
    for (dv_output(&easy.end, &out); out.len; dv_output(&easy.end, &out)) {
      ssize_t n = write(fd, out.at, out.len);
      if (n < 0) perror("write"), exit(255);
      dv_written(&easy.end, (size_t)n);
    }
    if (code == DV_OVER) break;
    must(code, "the connection: ");
    ssize_t n = read(fd, buffer, sizeof buffer);
    if (n < 0) perror("read"), exit(255);
    if (n == 0) say("the server closed the connection", "");
    code = n ? dv_drive(&easy, buffer, (size_t)n, hear, NULL) : DV_OVER;
  }
  dv_easy_close(&easy);
  return status;
}
