/* divrelca_easy.h: an easy way to use the ends of divrelca.h. All of it is inline, over the calls of that header.
 *
 * A dv_easy is an end with the source of its random bytes. dv_drive takes all bytes that came from the peer, tells each event, hands the
 * end fresh pairs, asks for the next exchange of keys once it is due, and makes the asks that wait. So none of these can be left out.
 *
 *   int32_t hear(void *context, dv_easy *easy, const dv_event *event) {
 *     switch (event->kind) {
 *       case DV_DATA: ...; return dv_consume(&easy->end, event->channel, event->data.len);
 *       ...
 *       default: return dv_decline(&easy->end);    // what the program does not know has its answer
 *     }
 *   }
 *
 *   dv_easy easy = DV_EASY_INIT;
 *   int32_t code = dv_easy_client(&easy, &settings, source, NULL);
 *   while (code == DV_DONE) {
 *     ...                                          // write what dv_output shows, and say so by dv_written
 *     n = read(fd, buffer, sizeof buffer);
 *     code = n > 0 ? dv_drive(&easy, buffer, n, hear, &mine) : DV_OVER;
 *   }
 *   ...                                            // write what waits still, and say dv_text(code)
 *   dv_easy_close(&easy);
 *
 * The rules for pointers are those of divrelca.h. The bytes of an event, and those that a reader finds in them, are valid until the next
 * call on the end: copy what is needed later.
 */
#ifndef DIVRELCA_EASY_H
#define DIVRELCA_EASY_H
#include "divrelca_requests.h"
#ifdef __cplusplus
extern "C" {
#endif

/* What the calls of this header return besides the codes of enum dv_code. With one of these the connection has to end. */
enum dv_easy_code {
  DV_NO_RANDOM = 401,       /* the source gave no random bytes */
  DV_REPEATED = 402         /* the source gave bytes that it gave this end before: it is broken */
};

/* ---- an end, and what drives it */

typedef struct dv_easy dv_easy;
/* Fills `to` with random bytes from a good source, and returns true; false if there are none. */
typedef bool (*dv_source)(void *context, uint8_t *to, size_t len);
/* Is told an event. DV_DONE to go on, and so with the code of an ask that was refused (dv_is_refusal). With any other code dv_drive takes
 * nothing more, and returns it. All calls on `easy` may be made here except dv_drive and dv_easy_close. */
typedef int32_t (*dv_hear)(void *context, dv_easy *easy, const dv_event *event);

/* `end` is for the exact calls of a program, such as dv_queue, dv_consume and dv_output; feeding it is left to this header. `taken` is how
 * many bytes the last dv_drive took. The rest is not for programs. Of the last two pairs that were given, the cookies are remembered and
 * the public keys of the secrets, not the secrets. */
struct dv_easy {
  dv_end end;
  size_t taken;
  dv_source source;
  void *context;
  uint8_t cookies[2][16], keys[2][32];
  dv_material fresh;
  bool has_fresh;
};
#define DV_EASY_INIT {{0}, 0, 0, 0, {{0}}, {{0}}, {{0}, {0}}, false}

static inline void dv_wipe(void *at, size_t len) {
  volatile uint8_t *byte = (volatile uint8_t *)at;
  while (len--) *byte++ = 0;
}

/* Frees an end and clears its handle. A handle that is zero can be closed, and one that is closed again. */
static inline void dv_close(dv_end *end) {
  if (end->at) dv_free(*end);
  end->at = 0;
}
/* The same for a dv_easy that began with DV_EASY_INIT. Its secrets are wiped. */
static inline void dv_easy_close(dv_easy *easy) {
  dv_close(&easy->end);
  dv_wipe(easy, sizeof *easy);
}

/* Draws the pair that the end is given next, unless there is one. 0, 401, 402. */
static inline int32_t dv_easy_draw(dv_easy *easy) {
  uint8_t key[32];
  if (easy->has_fresh) return DV_DONE;
  if (!easy->source(easy->context, easy->fresh.cookie, sizeof easy->fresh.cookie)) return DV_NO_RANDOM;
  if (!easy->source(easy->context, easy->fresh.secret, sizeof easy->fresh.secret)) return DV_NO_RANDOM;
  dv_public_key(easy->fresh.secret, key);
  for (int n = 0; n < 2; n++)
    if (!memcmp(easy->cookies[n], easy->fresh.cookie, 16) || !memcmp(easy->keys[n], key, 32)) return DV_REPEATED;
  memcpy(easy->cookies[0], easy->cookies[1], 16), memcpy(easy->cookies[1], easy->fresh.cookie, 16);
  memcpy(easy->keys[0], easy->keys[1], 32), memcpy(easy->keys[1], key, 32);
  easy->has_fresh = true;
  return DV_DONE;
}
static inline int32_t dv_easy_begin(dv_easy *easy, dv_source source, void *context, uint8_t padding[32]) {
  int32_t code;
  dv_wipe(easy, sizeof *easy);
  easy->source = source;
  easy->context = context;
  code = dv_easy_draw(easy);
  if (code != DV_DONE) return code;
  if (!source(context, padding, 32)) return DV_NO_RANDOM;
  if (!memcmp(padding, easy->fresh.secret, 32)) return DV_REPEATED;
  return DV_DONE;
}
static inline int32_t dv_easy_begun(dv_easy *easy, int32_t code, uint8_t padding[32]) {
  dv_wipe(padding, 32), dv_wipe(&easy->fresh, sizeof easy->fresh);
  easy->has_fresh = false;
  return code;
}

/* Makes a server, with random bytes of this source, now and as long as it is there. Whatever `easy` was is written over. The codes of
 * dv_server_new, 401, 402; with any but 0 no end is made. */
static inline int32_t dv_easy_server(dv_easy *easy, const dv_server_settings *settings, dv_source source, void *context) {
  uint8_t padding[32] = {0};
  int32_t code = dv_easy_begin(easy, source, context, padding);
  if (code == DV_DONE) code = dv_server_new(&easy->end, settings, &easy->fresh, padding);
  return dv_easy_begun(easy, code, padding);
}
/* The same for a client. */
static inline int32_t dv_easy_client(dv_easy *easy, const dv_client_settings *settings, dv_source source, void *context) {
  uint8_t padding[32] = {0};
  int32_t code = dv_easy_begin(easy, source, context, padding);
  if (code == DV_DONE) code = dv_client_new(&easy->end, settings, &easy->fresh, padding);
  return dv_easy_begun(easy, code, padding);
}

/* Whether a code is of an ask that was refused, and the connection can go on. */
static inline bool dv_is_refusal(int32_t code) { return code >= DV_NOT_YET && code <= DV_NO_MATERIAL; }

/* Feeds the end, asks for an exchange of keys if one is due, and makes the asks that wait and can be made. dv_drive does it after each
 * event; a program calls it after asks, or dv_consume, that it makes at other times. Asks that have no use any more (dv_is_gone) are
 * dropped without a word.
 *
 * 0; 2 to 12 (dv_is_refusal) is the code of the first ask that was refused for another reason: it is dropped, and the others are made; -2
 * if the end is over; 401, 402, -1. */
static inline int32_t dv_settle(dv_easy *easy) {
  const dv_ask rekey = dv_ask_on(DV_ASK_REKEY, 0);
  int32_t first = DV_DONE;
  for (;;) {
    uint32_t channel;
    int32_t code = dv_is_over(&easy->end) ? DV_OVER : dv_easy_draw(easy);
    if (code == DV_DONE && dv_feed(&easy->end, &easy->fresh)) {
      dv_wipe(&easy->fresh, sizeof easy->fresh);
      easy->has_fresh = false;
    }
    if (code == DV_DONE && dv_rekey_due(&easy->end)) code = dv_ask_now(&easy->end, &rekey, &channel);
    if (code != DV_DONE && !dv_is_later(code)) return code;
    if (!dv_queued(&easy->end)) return first;
    code = dv_work(&easy->end, &channel);
    if (dv_is_later(code)) return first;
    if (code == DV_DONE || dv_is_gone(code)) continue;
    if (!dv_is_refusal(code)) return code;
    if (first == DV_DONE) first = code;
  }
}

/* Takes all bytes that came from the peer, and tells each event to `hear`, in their order. With no bytes it is dv_settle.
 *
 * The codes of dv_settle and of `hear`. With 0, and with 1 to 12 (dv_is_refusal, the first one), all bytes were taken, and the connection
 * goes on. With -2 the end is over: an event said why, unless this end disconnected. With any other code the connection has to end, and
 * bytes may be left that were not taken: `taken` of `easy` counts those that were. What dv_output shows is for the peer all the same. */
static inline int32_t dv_drive(dv_easy *easy, const uint8_t *bytes, size_t len, dv_hear hear, void *context) {
  int32_t first = DV_DONE, code = dv_settle(easy);
  easy->taken = 0;
  for (;;) {
    size_t used = 0;
    dv_event event = DV_EVENT_INIT;
    if (code != DV_DONE && !dv_is_refusal(code)) return code;
    if (first == DV_DONE) first = code;
    if (easy->taken == len) return first;
    code = dv_take(&easy->end, bytes + easy->taken, len - easy->taken, &used);
    easy->taken += used;
    if (code != DV_DONE) return code;
    dv_show_event(&easy->end, &event);
    if (event.kind != DV_NOTHING) code = hear(context, easy, &event);
    if (first == DV_DONE && dv_is_refusal(code)) first = code;
    if (code == DV_DONE || dv_is_refusal(code)) code = dv_settle(easy);
  }
}

/* Sends as many of the first bytes of the data as can be sent now: `taken` of them. `stream` 0 is data, 1 standard error. It can be fewer,
 * or none: the peer's window is full, keys are exchanged, or asks wait, which go first. Go on after the next dv_drive. All that is taken
 * waits in dv_output: write that first where it is much.
 *
 * The codes of dv_settle and dv_send, but none that dv_is_later. */
static inline int32_t dv_easy_send(dv_easy *easy, uint32_t channel, uint32_t stream, const uint8_t *body, size_t len, size_t *taken) {
  int32_t code = dv_settle(easy);
  size_t part = 1;
  *taken = 0;
  while (code == DV_DONE && part && *taken < len && !dv_queued(&easy->end)) {
    code = dv_send(&easy->end, channel, stream, body + *taken, len - *taken, &part);
    *taken += part;
    if (code == DV_DONE || code == DV_REKEY_DUE) code = dv_settle(easy);
  }
  return dv_is_later(code) ? DV_DONE : code;
}

/* ---- asks */

/* The answer to the peer's oldest request on a channel. */
static inline dv_ask dv_ask_reply(uint32_t channel, bool is_done) {
  dv_ask ask = dv_ask_on(DV_ASK_REPLY, channel);
  ask.flag = is_done;
  return ask;
}
/* dv_queue of an ask. dv_drive makes it, or dv_settle. Asks wait in their order, and one that comes too early keeps those behind it back:
 * open a channel once the user is let in, or the login waits behind it. */
static inline int32_t dv_easy_queue(dv_easy *easy, dv_ask ask) { return dv_queue(&easy->end, &ask); }
/* A request on a channel. `data` is built by divrelca_requests.h; where it is built in vain, with 0 bytes, DV_TOO_LONG. 0, 5, -1. */
static inline int32_t dv_easy_request(dv_easy *easy, uint32_t channel, const char *name, bool wants_reply, dv_bytes data) {
  if (!data.len) return DV_TOO_LONG;
  return dv_easy_queue(easy, dv_ask_texts(DV_ASK_REQUEST, channel, dv_words(name), wants_reply, data));
}
/* What ends a command at a server: its exit status, EOF and CLOSE. 0, -1. */
static inline int32_t dv_easy_exit(dv_easy *easy, uint32_t channel, uint32_t status) {
  uint8_t room[4];
  int32_t code = dv_easy_request(easy, channel, "exit-status", false, dv_built(room, dv_build_number(room, sizeof room, status)));
  if (code == DV_DONE) code = dv_easy_queue(easy, dv_ask_on(DV_ASK_EOF, channel));
  return code == DV_DONE ? dv_easy_queue(easy, dv_ask_on(DV_ASK_CLOSE, channel)) : code;
}

/* ---- texts for people */

typedef struct dv_said { int32_t number; const char *text; } dv_said;

/* What each code says that was found, in the order of enum dv_code. */
static const dv_said dv_texts[] = {
  {DV_DONE, "done"},
  {DV_NOT_YET, "it is too early: before the first exchange of keys, the service or the login"},
  {DV_BUSY, "an exchange of keys, or another request, is under way"},
  {DV_NO_CHANNEL, "no channel of this number takes part"},
  {DV_NO_ROOM, "the peer's window is too small for the data"},
  {DV_TOO_LONG, "the message would be too long"},
  {DV_ENDED_ALREADY, "EOF or CLOSE was sent on the channel, or the login is over"},
  {DV_TABLE_FULL, "1,024 channels are in use"},
  {DV_NOTHING_OWED, "no request of the peer waits for a reply"},
  {DV_REKEY_DUE, "an exchange of keys comes first"},
  {DV_TOO_MUCH, "a window or a packet size is out of its bounds"},
  {DV_WRONG_SIDE, "it is for an end of the other role"},
  {DV_NO_MATERIAL, "no pair of a cookie and a secret is kept: feed the end"},
  {DV_BAD_SOFTWARE, "no version line has this software"},
  {DV_BAD_LIST, "a list of names is not good"},
  {DV_BAD_LIMIT, "a limit is out of its bounds"},
  {DV_BAD_EXTENSION, "an extension is not good"},
  {DV_FILE_BEGIN, "there is no line that begins an OpenSSH private key"},
  {DV_FILE_END, "there is no line that ends an OpenSSH private key"},
  {DV_FILE_BASE64, "it is not base64"},
  {DV_FILE_FORMAT, "it is not of the format openssh-key-v1"},
  {DV_FILE_UNENCRYPTED, "the key has a passphrase"},
  {DV_FILE_ED25519, "it is not one key of ssh-ed25519"},
  {DV_FILE_PAIR, "the public key does not belong to the private key"},
  {DV_FILE_KEY, "it is not a good public key of ssh-ed25519"},
  {DV_FILE_HOST, "the line has no hosts and key"},
  {DV_FILE_MARK, "the line has a mark that is not known"},
  {DV_FILE_HASHED_HOST, "the hashed name is not |1|SALT|HASH"},
  {DV_FILE_AUTHORIZED_KEY, "the line is no key of ssh-ed25519, or has options before it"},
  {DV_FILE_ANY_HOST_KEY, "no key of ssh-ed25519 is known for this host"},
  {DV_FILE_ONE_HOST_KEY, "several keys are known for this host"},
  {DV_FILE_UNREVOKED, "the host's key is revoked"},
  {DV_FILE_ANY_KEY, "there is no key of ssh-ed25519"},
  {DV_FILE_PASSWORD, "there is no password on one line"},
  {DV_BAD_SIZE, "the settings have another size than those of the library"},
  {DV_BAD_KEY, "a key is not good, or there are too many"},
  {DV_BAD_LOGIN, "a user's name, password or kind of login is not good"},
  {DV_BAD_METHODS, "the methods are not good"},
  {DV_BAD_CIPHERS, "the ciphers are not good"},
  {DV_BAD_ASK, "there is no such ask"},
  {DV_NO_KEY, "the client has no key of its user"},
  {DV_NOTHING_QUEUED, "no ask waits"},
  {DV_USER_KNOWN, "a key or a password of this user was asked for already, or the user was set before"},
  {DV_WANTED, "the next packet asks the program"},
  {DV_NOTHING_WANTED, "no answer is wanted"},
  {DV_TOO_LATE, "a line of the peer was taken already"},
  {DV_NO_SIGNATURE, "no signature was set for this login"},
  {DV_BAD_SIGNATURE, "a signature has no bytes, or too many"},
  {DV_SIGNATURE_KNOWN, "a signature was set for this login before, or the user's own key signs it"},
  {DV_MEMORY, "memory was refused"},
  {DV_OVER, "the end is over"},
  {DV_NO_RANDOM, "there are no random bytes"},
  {DV_REPEATED, "the random bytes are those of an earlier time"},
};
/* What the peer did, of each refusal: the number of DV_REFUSED. */
static const dv_said dv_refusals[] = {
  {1, "a line before the first packet is malformed"},
  {2, "the version of the protocol is not accepted"},
  {3, "a packet's length is none that a packet can have"},
  {4, "a packet's padding is too short, or leaves no payload"},
  {5, "a packet's MAC does not verify"},
  {6, "a message is malformed"},
  {7, "a message came that may not come here"},
  {8, "the two ends have no algorithm in common"},
  {9, "the peer does not offer strict key exchange"},
  {10, "a public point is not valid"},
  {11, "the host is not trusted"},
  {12, "no cookie and secret are kept for a key exchange"},
  {13, "the service is not available"},
  {14, "all sequence numbers of the epoch are used"},
  {15, "too many requests for authentication failed"},
  {16, "a message is for a channel that is not there"},
  {17, "data overrun a window"},
  {18, "a window would pass 2^32 - 1 bytes"},
  {19, "too many replies are owed"},
};

static inline const char *dv_text_in(const dv_said *all, size_t count, int64_t number, const char *other) {
  for (size_t n = 0; n < count; n++)
    if (all[n].number == number) return all[n].text;
  return other;
}
/* What a code says, for people, as "the key has a passphrase": of enum dv_code and of enum dv_easy_code. Valid for ever. */
static inline const char *dv_text(int32_t code) {
  return dv_text_in(dv_texts, sizeof dv_texts / sizeof *dv_texts, code, "a code that is not known");
}
/* The same of a refusal, as "a packet's MAC does not verify". */
static inline const char *dv_refusal_text(uint32_t number) {
  return dv_text_in(dv_refusals, sizeof dv_refusals / sizeof *dv_refusals, number, "a refusal that is not known");
}

#ifdef __cplusplus
}
#endif
#endif
